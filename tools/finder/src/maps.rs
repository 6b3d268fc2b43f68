//! The maps of a text, and what each says. It is lenient on the EDN: it looks at no character past
//! ASCII, and not for repeated keys. Which fault a text has is for the proved program to say.

use crate::kinds::{self, Function, Value};
use crate::lexer::{Lexer, Token, TokenKind};
use crate::usual::usual_event;

/// How many brackets may be open at once.
const MOST_OPEN: usize = 16;

/// The greatest number of an object.
pub const LAST_OBJECT: i64 = 65_535;

/// What matters of an element.
#[derive(Clone, Copy)]
enum Element<'a> {
    Plain(Value),
    Keyword(&'a [u8]),
    Other,
}

/// What is left of the text.
struct Reader<'a> {
    text: &'a [u8],
    tokens: Lexer<'a>,
}

impl<'a> Reader<'a> {
    /// The element that begins with this token, if this many more brackets may be open. `None`:
    /// there is none.
    fn element(&mut self, token: Token, depth: usize) -> Option<Element<'a>> {
        match token.kind {
            TokenKind::Text => Some(Element::Other),
            TokenKind::OpenVector => self.vector(depth.checked_sub(1)?),
            TokenKind::OpenMap => {
                self.map(depth.checked_sub(1)?, |_, _| ())?;
                Some(Element::Other)
            }
            TokenKind::Word => match token.of(self.text) {
                [b':', name @ ..] => Some(Element::Keyword(name)),
                b"nil" => Some(Element::Plain(Value::Nil)),
                b"false" => Some(Element::Plain(Value::False)),
                b"true" => Some(Element::Plain(Value::True)),
                word => Some(Element::Plain(Value::Int(integer(word)?))),
            },
            TokenKind::OpenText | TokenKind::CloseVector | TokenKind::CloseMap => None,
        }
    }

    /// The rest of a vector.
    fn vector(&mut self, depth: usize) -> Option<Element<'a>> {
        let mut first = [None; 3];
        let mut count = 0;
        loop {
            let token = self.tokens.next()?;
            if token.kind == TokenKind::CloseVector {
                break;
            }
            let element = self.element(token, depth)?;
            if let (Some(slot), Element::Plain(Value::Int(v))) = (first.get_mut(count), element) {
                *slot = Some(v);
            }
            count += 1;
        }
        Some(match first {
            [Some(a), Some(b), _] if count == 2 => Element::Plain(Value::Pair(a, b)),
            [Some(a), Some(b), Some(c)] if count == 3 => Element::Plain(Value::Triple(a, b, c)),
            _ => Element::Other,
        })
    }

    /// Reads the rest of a map, and hands over its keys and values.
    fn map(&mut self, depth: usize, mut on: impl FnMut(&'a [u8], Element<'a>)) -> Option<()> {
        loop {
            let token = self.tokens.next()?;
            if token.kind == TokenKind::CloseMap {
                return Some(());
            }
            let Element::Keyword(key) = self.element(token, 0)? else {
                return None;
            };
            let value = self.tokens.next()?;
            on(key, self.element(value, depth)?);
        }
    }
}

/// The integer that a token spells.
fn integer(token: &[u8]) -> Option<i64> {
    let (is_negative, digits) = match token {
        [b'-', digits @ ..] => (true, digits),
        [b'+', digits @ ..] => (false, digits),
        digits => (false, digits),
    };
    if digits.is_empty() {
        return None;
    }
    // The least integer has no opposite, so the number is taken as a negative one.
    let opposite = digits.iter().try_fold(0_i64, |number, byte| {
        let digit = byte.is_ascii_digit().then(|| i64::from(byte - b'0'))?;
        number.checked_mul(10)?.checked_sub(digit)
    })?;
    if is_negative { Some(opposite) } else { opposite.checked_neg() }
}

/// The values of the keys of a map that matter.
#[derive(Default)]
struct Fields<'a> {
    process: Option<Element<'a>>,
    of_type: Option<Element<'a>>,
    function: Option<Element<'a>>,
    value: Option<Element<'a>>,
    object: Option<Element<'a>>,
}

/// What a map of a client says of an operation.
#[derive(Clone, Copy, Debug, PartialEq, Eq)]
pub enum EventType {
    Invoke,
    Ok,
    Fail,
    Info,
}

impl EventType {
    fn named(name: &[u8]) -> Option<EventType> {
        Some(match name {
            b"invoke" => EventType::Invoke,
            b"ok" => EventType::Ok,
            b"fail" => EventType::Fail,
            b"info" => EventType::Info,
            _ => return None,
        })
    }
}

/// A map of a client.
pub struct Event {
    pub process: i64,
    pub of_type: EventType,
    pub function: &'static Function,
    /// None if it is no value of an operation.
    pub value: Option<Value>,
    pub object: u32,
}

/// What a map is.
pub enum Map {
    OfClient(Event),
    /// The process is a keyword. It and the function are without their colons.
    OfNemesis {
        process: String,
        function: String,
    },
}

impl<'a> Fields<'a> {
    /// The fields of the map that begins with this token.
    fn read(reader: &mut Reader<'a>, first: Token) -> Option<Fields<'a>> {
        if first.kind != TokenKind::OpenMap {
            return None;
        }
        let mut fields = Fields::default();
        reader.map(MOST_OPEN - 1, |key, value| {
            let field = match key {
                b"process" => &mut fields.process,
                b"type" => &mut fields.of_type,
                b"f" => &mut fields.function,
                b"value" => &mut fields.value,
                b"object" => &mut fields.object,
                _ => return,
            };
            *field = Some(value);
        })?;
        Some(fields)
    }

    /// What the map says. `None`: it is not a map of a history.
    fn map(&self) -> Option<Map> {
        match self.process? {
            Element::Keyword(process) => Some(self.nemesis(process)),
            Element::Plain(Value::Int(process)) if process >= 0 => {
                self.event(process).map(Map::OfClient)
            }
            _ => None,
        }
    }

    fn nemesis(&self, process: &[u8]) -> Map {
        let function = match self.function {
            Some(Element::Keyword(name)) => name,
            _ => b"",
        };
        let text = |name| String::from_utf8_lossy(name).into_owned();
        Map::OfNemesis { process: text(process), function: text(function) }
    }

    fn event(&self, process: i64) -> Option<Event> {
        let object = match self.object {
            None => 0,
            Some(Element::Plain(Value::Int(object))) if object <= LAST_OBJECT => object,
            _ => return None,
        };
        let (Some(Element::Keyword(of_type)), Some(Element::Keyword(function))) =
            (self.of_type, self.function)
        else {
            return None;
        };
        let value = match self.value {
            None => Some(Value::Nil),
            Some(Element::Plain(value)) => Some(value),
            Some(_) => None,
        };
        let (of_type, function) = (EventType::named(of_type)?, kinds::function(function)?);
        Some(Event { process, of_type, function, value, object: u32::try_from(object).ok()? })
    }
}

/// Hands over the maps at the front of a text, up to one that does not end in it. Gives how many
/// bytes these take. `None`: there is what a history can't have, or what is not taken.
pub fn each_map(text: &[u8], mut take: impl FnMut(Map) -> Option<()>) -> Option<usize> {
    let mut taken = 0;
    loop {
        let rest = &text[taken..];
        if let Some((event, length)) = usual_event(rest) {
            take(Map::OfClient(event))?;
            taken += length;
            continue;
        }
        let mut reader = Reader { text: rest, tokens: Lexer::new(rest) };
        let first = reader.tokens.next();
        let Some(fields) = first.and_then(|first| Fields::read(&mut reader, first)) else {
            return Some(taken);
        };
        take(fields.map()?)?;
        taken += reader.tokens.at();
    }
}

/// Whether a text has separators and comments alone.
pub fn is_blank(text: &[u8]) -> bool {
    Lexer::new(text).next().is_none()
}
