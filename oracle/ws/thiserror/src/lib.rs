//! Stand-in for the `thiserror::Error` derive: enums with `#[error("..", args)]`, `#[error(transparent)]`,
//! `#[from]` and fields named `source`. No other crate needed.
use proc_macro::{Delimiter, TokenStream, TokenTree};

struct Field {
    name: String,
    ty: String,
    from: bool,
}

fn fields(ts: TokenStream, named: bool) -> Vec<Field> {
    let mut out = Vec::new();
    let (mut from, mut name, mut ty, mut depth, mut in_type, mut n) =
        (false, String::new(), String::new(), 0i32, !named, 0);
    let mut it = ts.into_iter().peekable();
    while let Some(t) = it.next() {
        match &t {
            TokenTree::Punct(p) if p.as_char() == '#' && ty.is_empty() => {
                if let Some(TokenTree::Group(g)) = it.next() {
                    if g.stream().to_string() == "from" {
                        from = true
                    }
                }
            }
            TokenTree::Punct(p) if p.as_char() == ':' && !in_type => in_type = true,
            TokenTree::Punct(p) if p.as_char() == ',' && depth == 0 => {
                if !named {
                    name = format!("_{n}")
                }
                n += 1;
                out.push(Field {
                    name: std::mem::take(&mut name),
                    ty: std::mem::take(&mut ty),
                    from,
                });
                from = false;
                in_type = !named;
            }
            t if in_type => {
                if let TokenTree::Punct(p) = t {
                    match p.as_char() {
                        '<' => depth += 1,
                        '>' => depth -= 1,
                        _ => {}
                    }
                }
                ty.push_str(&t.to_string());
                if let TokenTree::Ident(_) = t {
                    ty.push(' ')
                }
            }
            t => name = t.to_string(),
        }
    }
    if !ty.is_empty() {
        if !named {
            name = format!("_{n}")
        }
        out.push(Field { name, ty, from })
    }
    out
}

#[proc_macro_derive(Error, attributes(error, from, source))]
pub fn derive(input: TokenStream) -> TokenStream {
    let mut it = input.into_iter();
    while let Some(t) = it.next() {
        if let TokenTree::Ident(i) = &t {
            if i.to_string() == "enum" {
                break;
            }
        }
    }
    let name = it.next().expect("enum name").to_string();
    let body = match it.next() {
        Some(TokenTree::Group(g)) if g.delimiter() == Delimiter::Brace => g.stream(),
        _ => panic!("plain enums only"),
    };
    let (mut disp, mut src, mut froms) = (String::new(), String::new(), String::new());
    let mut attr = String::new();
    let mut it = body.into_iter().peekable();
    while let Some(t) = it.next() {
        match t {
            TokenTree::Punct(p) if p.as_char() == '#' => {
                if let Some(TokenTree::Group(g)) = it.next() {
                    let mut a = g.stream().into_iter();
                    if a.next().is_some_and(|x| x.to_string() == "error") {
                        if let Some(TokenTree::Group(g)) = a.next() {
                            attr = g.stream().to_string()
                        }
                    }
                }
            }
            TokenTree::Ident(v) => {
                let (pat, fs) = match it.peek() {
                    Some(TokenTree::Group(g)) => {
                        let named = g.delimiter() == Delimiter::Brace;
                        let fs = fields(g.stream(), named);
                        let names = fs.iter().map(|f| f.name.clone()).collect::<Vec<_>>().join(", ");
                        it.next();
                        (
                            if named {
                                format!("{name}::{v} {{ {names} }}")
                            } else {
                                format!("{name}::{v}({names})")
                            },
                            fs,
                        )
                    }
                    _ => (format!("{name}::{v}"), Vec::new()),
                };
                if attr == "transparent" {
                    disp.push_str(&format!("{pat} => ::core::fmt::Display::fmt({}, f),", fs[0].name));
                    src.push_str(&format!("{pat} => ::std::error::Error::source({}),", fs[0].name));
                } else {
                    disp.push_str(&format!("{pat} => ::core::write!(f, {attr}),"));
                    match fs.iter().find(|f| f.from || f.name == "source") {
                        Some(s) => src.push_str(&format!(
                            "{pat} => Some({} as &(dyn ::std::error::Error + 'static)),",
                            s.name
                        )),
                        None => src.push_str(&format!("{pat} => None,")),
                    }
                }
                if let Some(f) = fs.iter().find(|f| f.from) {
                    froms.push_str(&format!(
                        "impl ::core::convert::From<{}> for {name} {{ fn from(e: {}) -> Self {{ {name}::{v}(e) }} }}",
                        f.ty, f.ty
                    ));
                }
                attr.clear();
            }
            _ => {}
        }
    }
    format!("#[allow(unused_variables)] impl ::core::fmt::Display for {name} {{ fn fmt(&self, f: &mut ::core::fmt::Formatter<'_>) -> ::core::fmt::Result {{ match self {{ {disp} }} }} }}
    #[allow(unused_variables)] impl ::std::error::Error for {name} {{ fn source(&self) -> Option<&(dyn ::std::error::Error + 'static)> {{ match self {{ {src} }} }} }} {froms}")
        .parse().expect("valid code")
}
