//! Markup. What is written into it beside the words of this program is escaped.

use std::fmt::Write;

/// The room that a piece of markup has from the beginning: most have no more.
const ROOM: usize = 160;

/// A piece of markup. It is made by `html!` alone.
#[derive(Clone, Debug, Default)]
pub struct Html(String);

/// What may be a part of markup.
pub trait ToHtml {
    fn add_to(&self, html: &mut Html);
}

/// The markup that these parts are, one after the other: literals are markup as they are, and all
/// else is added as a [`ToHtml`], which escapes text.
macro_rules! html {
    (@ $html:ident) => {};
    (@ $html:ident, $markup:literal $(, $($rest:tt)*)?) => {
        $html.add_markup($markup);
        html!(@ $html $(, $($rest)*)?);
    };
    (@ $html:ident, $part:expr $(, $($rest:tt)*)?) => {
        $crate::page::html::ToHtml::add_to(&$part, &mut $html);
        html!(@ $html $(, $($rest)*)?);
    };
    (@ $html:ident,) => {};
    ($($part:tt)*) => {{
        #[allow(unused_mut)]
        let mut html = $crate::page::html::Html::new();
        html!(@ html, $($part)*);
        html
    }};
}
pub(crate) use html;

impl Html {
    /// A piece to which the parts of `html!` are added.
    pub fn new() -> Html {
        Html(String::with_capacity(ROOM))
    }

    /// Adds markup as it is. It is for the literals of `html!`, and for the sheet of styles.
    pub fn add_markup(&mut self, markup: &'static str) {
        self.0.push_str(markup);
    }

    pub fn into_text(self) -> String {
        self.0
    }
}

impl FromIterator<Html> for Html {
    fn from_iter<I: IntoIterator<Item = Html>>(parts: I) -> Html {
        Html(parts.into_iter().map(|part| part.0).collect())
    }
}

impl ToHtml for Html {
    fn add_to(&self, html: &mut Html) {
        html.0.push_str(&self.0);
    }
}

/// Text, which is escaped for elements and for the values of attributes.
impl ToHtml for str {
    fn add_to(&self, html: &mut Html) {
        let mut rest = self;
        while let Some(at) = rest.find(['&', '<', '>', '"']) {
            html.0.push_str(&rest[..at]);
            html.0.push_str(match rest.as_bytes()[at] {
                b'&' => "&amp;",
                b'<' => "&lt;",
                b'>' => "&gt;",
                _ => "&quot;",
            });
            rest = &rest[at + 1..];
        }
        html.0.push_str(rest);
    }
}

impl ToHtml for String {
    fn add_to(&self, html: &mut Html) {
        self.as_str().add_to(html);
    }
}

impl<P: ToHtml + ?Sized> ToHtml for &P {
    fn add_to(&self, html: &mut Html) {
        (**self).add_to(html);
    }
}

impl<P: ToHtml> ToHtml for Option<P> {
    fn add_to(&self, html: &mut Html) {
        if let Some(part) = self {
            part.add_to(html);
        }
    }
}

macro_rules! numbers_are_parts {
    ($($number:ty),*) => {
        $(impl ToHtml for $number {
            fn add_to(&self, html: &mut Html) {
                let _ = write!(html.0, "{self}");
            }
        })*
    };
}
numbers_are_parts!(u8, u32, u64, usize);

#[cfg(test)]
mod tests {
    #[test]
    fn escapes_what_is_no_literal() {
        const SEVEN: u32 = 7;
        let text = String::from("a<b> & \"c\"");
        let none: Option<&str> = None;
        let html = html!["<p title=\"", text, "\">", SEVEN, none, html!["<br>"], "</p>"];
        let wanted = "<p title=\"a&lt;b&gt; &amp; &quot;c&quot;\">7<br></p>";
        assert_eq!(html.into_text(), wanted);
    }
}
