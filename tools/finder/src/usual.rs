//! The maps of clients in the usual forms, read straight from the bytes: as the generators of
//! fcbench write them, with the process first, and as Jepsen writes them, with the index first. A
//! map in another form gives `None` here, and is read by its tokens.

use crate::kinds::{Function, Value, function};
use crate::maps::{Event, EventType, LAST_OBJECT};

/// How many digits an integer has that definitely fits.
const SURE_DIGITS: usize = 18;

/// What is left of a text.
#[derive(Clone, Copy)]
struct Front<'a>(&'a [u8]);

impl<'a> Front<'a> {
    /// What follows these bytes.
    #[inline(always)]
    fn after<const LENGTH: usize>(self, bytes: &[u8; LENGTH]) -> Option<Front<'a>> {
        self.0.strip_prefix(bytes).map(Front)
    }

    /// A number without a sign.
    #[inline(always)]
    fn natural(self) -> Option<(i64, Front<'a>)> {
        let mut number = 0_i64;
        let mut count = 0;
        while let Some(byte) = self.0.get(count)
            && byte.is_ascii_digit()
        {
            number = number.wrapping_mul(10).wrapping_add(i64::from(byte - b'0'));
            count += 1;
        }
        let is_sure = (1..=SURE_DIGITS).contains(&count);
        is_sure.then(|| (number, Front(&self.0[count..])))
    }

    #[inline(always)]
    fn integer(self) -> Option<(i64, Front<'a>)> {
        match self.after(b"-") {
            Some(front) => front.natural().map(|(number, rest)| (-number, rest)),
            None => self.natural(),
        }
    }

    #[inline(always)]
    fn event_type(self) -> Option<(EventType, Front<'a>)> {
        let (of_type, rest) = match self.0 {
            [b'i', b'n', b'v', b'o', b'k', b'e', rest @ ..] => (EventType::Invoke, rest),
            [b'o', b'k', rest @ ..] => (EventType::Ok, rest),
            [b'f', b'a', b'i', b'l', rest @ ..] => (EventType::Fail, rest),
            [b'i', b'n', b'f', b'o', rest @ ..] => (EventType::Info, rest),
            _ => return None,
        };
        Some((of_type, Front(rest)))
    }

    /// The function whose name of small letters and hyphens is here.
    #[inline(always)]
    fn function(self) -> Option<(&'static Function, Front<'a>)> {
        let in_name = |byte: &u8| byte.is_ascii_lowercase() || *byte == b'-';
        let end = self.0.iter().position(|byte| !in_name(byte)).unwrap_or(self.0.len());
        let (name, rest) = self.0.split_at(end);
        Some((function(name)?, Front(rest)))
    }

    /// A pair, or three integers.
    #[inline(always)]
    fn vector(self) -> Option<(Value, Front<'a>)> {
        let (first, rest) = self.after(b"[")?.integer()?;
        let (second, rest) = rest.after(b" ")?.integer()?;
        if let Some(rest) = rest.after(b"]") {
            return Some((Value::Pair(first, second), rest));
        }
        let (third, rest) = rest.after(b" ")?.integer()?;
        Some((Value::Triple(first, second, third), rest.after(b"]")?))
    }

    #[inline(always)]
    fn value(self) -> Option<(Value, Front<'a>)> {
        match self.0.first()? {
            b'n' => Some((Value::Nil, self.after(b"nil")?)),
            b'f' => Some((Value::False, self.after(b"false")?)),
            b't' => Some((Value::True, self.after(b"true")?)),
            b'[' => self.vector(),
            _ => {
                let (number, rest) = self.integer()?;
                Some((Value::Int(number), rest))
            }
        }
    }

    /// What follows a key with an integer, if it is here.
    #[inline(always)]
    fn after_number<const LENGTH: usize>(self, key: &[u8; LENGTH]) -> Option<Front<'a>> {
        match self.after(key) {
            Some(front) => front.integer().map(|(_, rest)| rest),
            None => Some(self),
        }
    }

    /// The object, or 0 if it is not here; and what follows the end of the map.
    #[inline(always)]
    fn object_and_end(self) -> Option<(u32, Front<'a>)> {
        if let Some(rest) = self.after(b"}") {
            return Some((0, rest));
        }
        let (object, rest) = match self.after(b", :object ") {
            Some(rest) => rest.natural().filter(|(object, _)| *object <= LAST_OBJECT)?,
            None => (0, self),
        };
        let rest = rest.after_number(b", :time ")?.after_number(b", :index ")?;
        Some((object as u32, rest.after(b"}")?))
    }

    #[inline(always)]
    fn process_first(self) -> Option<(Event, Front<'a>)> {
        let (process, rest) = self.after(b"{:process ")?.natural()?;
        let (of_type, rest) = rest.after(b", :type :")?.event_type()?;
        let (function, rest) = rest.after(b", :f :")?.function()?;
        let (value, rest) = rest.after(b", :value ")?.value()?;
        let (object, rest) = rest.object_and_end()?;
        Some((Event { process, of_type, function, value: Some(value), object }, rest))
    }

    fn index_first(self) -> Option<(Event, Front<'a>)> {
        let rest = self.after(b"{:index ")?.integer()?.1;
        let rest = rest.after(b", :time ")?.integer()?.1;
        let (of_type, rest) = rest.after(b", :type :")?.event_type()?;
        let (process, rest) = rest.after(b", :process ")?.natural()?;
        let (function, rest) = rest.after(b", :f :")?.function()?;
        let (value, rest) = rest.after(b", :value ")?.value()?;
        let (object, rest) = rest.object_and_end()?;
        Some((Event { process, of_type, function, value: Some(value), object }, rest))
    }
}

/// The map at the front of a text, after one line feed or none, if it has a usual form; and how
/// many bytes it takes.
#[inline(always)]
pub fn usual_event(text: &[u8]) -> Option<(Event, usize)> {
    let front = Front(text);
    let front = front.after(b"\n").unwrap_or(front);
    let (event, rest) = front.process_first().or_else(|| front.index_first())?;
    Some((event, text.len() - rest.0.len()))
}

#[cfg(test)]
mod tests {
    use super::*;

    #[test]
    fn reads_usual_maps() {
        let text = b"\n{:process 12, :type :ok, :f :cas, :value [-3 40], :object 7, :time 5}x";
        let (event, length) = usual_event(text).expect("a usual map");
        assert_eq!((event.process, event.object, event.function.name), (12, 7, "cas"));
        assert_eq!((event.of_type, event.value), (EventType::Ok, Some(Value::Pair(-3, 40))));
        assert_eq!(length, text.len() - 1);
        let text = b"{:index 0, :time 1, :type :invoke, :process 3, :f :get, :value 9}";
        let (event, length) = usual_event(text).expect("a usual map");
        assert_eq!((event.process, event.object, event.function.name), (3, 0, "get"));
        assert_eq!((event.of_type, event.value), (EventType::Invoke, Some(Value::Int(9))));
        assert_eq!(length, text.len());
    }

    #[test]
    fn leaves_other_maps_to_the_tokens() {
        for text in [
            "",
            "{:process 12, :type :ok, :f :cas, :value [3 40]",
            "{:process 12,:type :ok, :f :cas, :value nil}",
            "{:process 12, :type :okay, :f :cas, :value nil}",
            "{:process -1, :type :ok, :f :cas, :value nil}",
            "{:process 1, :type :ok, :f :enqueue, :value 1234567890123456789}",
            "{:process 1, :type :ok, :f :enqueue, :value 1, :object 65536}",
            "{:process 1, :type :ok, :f :enqueue, :value 1, :other 2}",
            "{:process 1, :type :ok, :f :enqueue, :value [1 2 3 4]}",
            "{:process :nemesis, :type :info, :f :kill, :value nil}",
        ] {
            assert!(usual_event(text.as_bytes()).is_none(), "{text}");
        }
    }
}
