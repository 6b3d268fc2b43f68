//! What acquires and releases an object: who the owner is, and who holds it.

use crate::events::{Kind, is_nemesis, name_of, said};
use crate::form::Form;
use crate::functions::{function, is_done, is_owner, is_value, keeps_owner};
use crate::operations::Operation;
use crate::reading::object_and_value;
use finder::Function;
use std::collections::{HashMap, HashSet};

/// Whether a form names an owner, and not only says that the call was done.
pub fn names_owner(form: &Form) -> bool {
    !is_done(form) && (is_value(form) || is_owner(form))
}

/// The objects whose operations all have a name and an argument by which they keep their owner.
pub fn owned_objects(all: &[Operation], is_keyed: bool) -> HashSet<Form> {
    let (mut owned, mut others) = (HashSet::new(), HashSet::new());
    for Operation { map, .. } in all {
        let is_invoked = Kind::read(said(map, "type")) == Some(Kind::Invoke);
        let named = name_of(map.get("f")).filter(|name| {
            is_invoked
                && function(name, false).is_some_and(|it| it.holds().is_some())
                && !is_nemesis(said(map, "process"))
        });
        if let (Some(name), Ok((object, value))) = (named, object_and_value(map, is_keyed)) {
            let is_owned = keeps_owner(name) && names_owner(value);
            (if is_owned { &mut owned } else { &mut others })
                .insert(object.unwrap_or(Form::Int(0)));
        }
    }
    owned.retain(|object| !others.contains(object));
    owned
}

/// Who holds which object, as the replies of a history say: with --check-owners.
#[derive(Default)]
pub struct Holding(HashMap<(Form, Form), Form>);

impl Holding {
    /// Refuses a release by a client that does not hold the object, or that holds it as another
    /// owner.
    pub fn check_release(&self, process: &Form, object: &Form, owner: &Form) -> Result<(), String> {
        match self.0.get(&(process.clone(), object.clone())) {
            None => {
                Err(format!("process {process} releases object {object}, which it does not hold"))
            }
            Some(held) if held != owner && names_owner(held) && names_owner(owner) => {
                Err(format!("it releases owner {owner}, but acquired owner {held}"))
            }
            Some(_) => Ok(()),
        }
    }

    /// Takes in that a call has returned, with its owner or nil.
    pub fn note(&mut self, process: &Form, object: &Form, function: &Function, owner: Form) {
        let key = (process.clone(), object.clone());
        match function.holds() {
            Some(true) => self.0.insert(key, owner),
            Some(false) => self.0.remove(&key),
            None => None,
        };
    }
}
