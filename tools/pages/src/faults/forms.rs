//! The sentences on a text that can be read and is no certificates.

use super::Explained;
use super::excerpts::excerpt;
use crate::elements::{ByteRange, elements_in, value_in};
use crate::timeline::spans;
use verdict::FormFaultKind;

/// What is wrong with a form.
fn wrong_form(kind: FormFaultKind) -> &'static str {
    match kind {
        FormFaultKind::TwoForOneObject => " is a second certificate for the same object.",
        FormFaultKind::NoCertificate => {
            " is no certificate: a map with :object and :order, a vector of integers."
        }
    }
}

/// The first of the forms that is for this object: its number and its place.
fn first_for(text: &[u8], forms: &[ByteRange], object: &[u8]) -> Option<(usize, ByteRange)> {
    let is_for = |form: &ByteRange| value_in(form.of(text), b":object") == Some(object);
    let found = forms.iter().position(is_for)?;
    Some((found, forms[found]))
}

/// The sentences on a text of which this form is no certificate.
pub fn explain_form(text: &[u8], kind: FormFaultKind, form: usize) -> Explained {
    let mut explained = Explained::default();
    let forms: Vec<ByteRange> = elements_in(text, 0).take(form.saturating_add(1)).collect();
    let nowhere = ByteRange { from: text.len(), to: text.len() };
    let place = forms.get(form).copied().unwrap_or(nowhere);
    let no_certificates = "The text can be read, but these are no certificates. Form ";
    explained.sentences.push(spans![no_certificates, form, wrong_form(kind)]);
    let caption = spans!["K", u32::from(kind.number()), " at form ", form];
    explained.excerpts.push(excerpt(text, place, caption, "here"));
    if kind == FormFaultKind::TwoForOneObject
        && let Some(object) = value_in(place.of(text), b":object")
        && let Some((first, place)) = first_for(text, &forms[..form.min(forms.len())], object)
        && let Some(object) = super::number_in(Some(object))
    {
        let caption = spans!["The first one for object ", object, ", form ", first as u64];
        explained.excerpts.push(excerpt(text, place, caption, "here"));
    }
    explained
}
