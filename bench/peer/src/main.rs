//! The canonical text of the JSON on standard input, as `serde_json_canonicalizer` writes it: a formatter of `serde_json`
//! that holds the members of each object in a map by the UTF-16 units of their names. With the argument `plain`, what
//! `serde_json` itself writes.
use serde::Serialize;
use serde_json::ser::{CharEscape, CompactFormatter, Formatter};
use std::collections::BTreeMap;
use std::io::{self, Read, Write};
use std::mem;

#[derive(Default)]
struct Object {
    members: BTreeMap<Vec<u16>, (Vec<u8>, Vec<u8>)>,
    key: Vec<u8>,
    value: Vec<u8>,
    in_key: bool,
}

#[derive(Default)]
struct CanonicalFormatter {
    unclosed: Vec<Object>,
}

impl CanonicalFormatter {
    fn put<W: ?Sized + Write>(&mut self, writer: &mut W, bytes: &[u8]) -> io::Result<()> {
        match self.unclosed.last_mut() {
            None => return writer.write_all(bytes),
            Some(object) if object.in_key => object.key.extend_from_slice(bytes),
            Some(object) => object.value.extend_from_slice(bytes),
        }
        Ok(())
    }

    fn innermost(&mut self) -> io::Result<&mut Object> {
        self.unclosed.last_mut().ok_or_else(|| io::Error::from(io::ErrorKind::InvalidData))
    }
}

impl Formatter for CanonicalFormatter {
    fn write_null<W: ?Sized + Write>(&mut self, writer: &mut W) -> io::Result<()> {
        self.put(writer, b"null")
    }

    fn write_bool<W: ?Sized + Write>(&mut self, writer: &mut W, value: bool) -> io::Result<()> {
        self.put(writer, if value { b"true" } else { b"false" })
    }

    fn write_i64<W: ?Sized + Write>(&mut self, writer: &mut W, value: i64) -> io::Result<()> {
        self.put(writer, itoa::Buffer::new().format(value).as_bytes())
    }

    fn write_u64<W: ?Sized + Write>(&mut self, writer: &mut W, value: u64) -> io::Result<()> {
        self.put(writer, itoa::Buffer::new().format(value).as_bytes())
    }

    fn begin_string<W: ?Sized + Write>(&mut self, writer: &mut W) -> io::Result<()> {
        self.put(writer, b"\"")
    }

    fn end_string<W: ?Sized + Write>(&mut self, writer: &mut W) -> io::Result<()> {
        self.put(writer, b"\"")
    }

    fn write_string_fragment<W: ?Sized + Write>(&mut self, writer: &mut W, fragment: &str) -> io::Result<()> {
        self.put(writer, fragment.as_bytes())
    }

    fn write_char_escape<W: ?Sized + Write>(&mut self, writer: &mut W, escape: CharEscape) -> io::Result<()> {
        let mut bytes = Vec::with_capacity(6);
        CompactFormatter.write_char_escape(&mut bytes, escape)?;
        self.put(writer, &bytes)
    }

    fn begin_array<W: ?Sized + Write>(&mut self, writer: &mut W) -> io::Result<()> {
        self.put(writer, b"[")
    }

    fn end_array<W: ?Sized + Write>(&mut self, writer: &mut W) -> io::Result<()> {
        self.put(writer, b"]")
    }

    fn begin_array_value<W: ?Sized + Write>(&mut self, writer: &mut W, first: bool) -> io::Result<()> {
        self.put(writer, if first { b"" } else { b"," })
    }

    fn begin_object<W: ?Sized + Write>(&mut self, _writer: &mut W) -> io::Result<()> {
        self.unclosed.push(Object::default());
        Ok(())
    }

    fn begin_object_key<W: ?Sized + Write>(&mut self, _writer: &mut W, _first: bool) -> io::Result<()> {
        self.innermost()?.in_key = true;
        Ok(())
    }

    fn end_object_key<W: ?Sized + Write>(&mut self, _writer: &mut W) -> io::Result<()> {
        self.innermost()?.in_key = false;
        Ok(())
    }

    fn begin_object_value<W: ?Sized + Write>(&mut self, _writer: &mut W) -> io::Result<()> {
        Ok(())
    }

    fn end_object_value<W: ?Sized + Write>(&mut self, _writer: &mut W) -> io::Result<()> {
        let object = self.innermost()?;
        let (key, value) = (mem::take(&mut object.key), mem::take(&mut object.value));
        let name: String = serde_json::from_slice(&key).map_err(io::Error::from)?;
        object.members.insert(name.encode_utf16().collect(), (key, value));
        Ok(())
    }

    fn end_object<W: ?Sized + Write>(&mut self, writer: &mut W) -> io::Result<()> {
        let members = mem::take(&mut self.innermost()?.members);
        self.unclosed.pop();
        self.put(writer, b"{")?;
        for (place, (key, value)) in members.values().enumerate() {
            self.put(writer, if place == 0 { b"" } else { b"," })?;
            self.put(writer, key)?;
            self.put(writer, b":")?;
            self.put(writer, value)?;
        }
        self.put(writer, b"}")
    }
}

fn main() -> io::Result<()> {
    let mut text = Vec::new();
    io::stdin().read_to_end(&mut text)?;
    let value: serde_json::Value = serde_json::from_slice(&text)?;
    let mut written = Vec::new();
    if std::env::args().nth(1).as_deref() == Some("plain") {
        serde_json::to_writer(&mut written, &value)?;
    } else {
        let formatter = CanonicalFormatter::default();
        value.serialize(&mut serde_json::Serializer::with_formatter(&mut written, formatter))?;
    }
    written.push(b'\n');
    io::stdout().write_all(&written)
}
