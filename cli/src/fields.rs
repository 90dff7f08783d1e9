//! The fields of a record that differ between two modules, as text.

use crate::names::Quoted;
use crate::records::{Envelope, Instrument, Sample, Song};
use crate::text::{put, Piece};
use crate::words::{FrameWords, LoopWords, PatternSize, PointWords, SampleWords};

/// Appends the fields that differ, each with its value in the first module and in the second.
pub struct Fields<'t> {
    text: &'t mut String,
    any: bool,
}

impl<'t> Fields<'t> {
    /// The text already names what the fields are of.
    pub fn new(text: &'t mut String) -> Fields<'t> {
        Fields { text, any: false }
    }

    /// None if no field differs.
    pub fn any(&self) -> Option<()> {
        self.any.then_some(())
    }

    /// `volume 64, 60`. The label ends with a space. It is empty if the value says what it is.
    pub fn put<Value: Piece + PartialEq>(&mut self, label: &str, one: Value, other: Value) {
        if one != other {
            self.begin();
            put!(self.text; label, one, ", ", other);
        }
    }

    /// The first item that differs, and how many more do: `point 1 is 4:64, 4:60; 2 more points differ`. Items that are in one list only
    /// are not compared.
    fn put_items<Value: Piece + PartialEq>(
        &mut self,
        noun: &Noun,
        one: impl Iterator<Item = Value>,
        other: impl Iterator<Item = Value>,
    ) {
        let pairs = one.zip(other).enumerate();
        let mut differing = pairs.filter(|(_, (one, other))| one != other);
        let Some((index, (one, other))) = differing.next() else {
            return;
        };
        self.begin();
        put!(self.text; noun.one, " ", index, noun.is, one, ", ", other);
        match differing.count() {
            0 => {}
            1 => put!(self.text; "; 1 more ", noun.one, " differs"),
            more => put!(self.text; "; ", more, " more ", noun.many, " differ"),
        }
    }

    /// Appends what separates a field from the text before it.
    fn begin(&mut self) {
        put!(self.text; if self.any { "; " } else { ": " });
        self.any = true;
    }
}

/// The words for the items of a list.
struct Noun {
    one: &'static str,
    many: &'static str,
    /// The words between the number of an item and its value.
    is: &'static str,
}

const ENTRY: Noun = Noun {
    one: "entry",
    many: "entries",
    is: " is pattern ",
};

const POINT: Noun = Noun {
    one: "point",
    many: "points",
    is: " is ",
};

const FRAME: Noun = Noun {
    one: "frame",
    many: "frames",
    is: " is ",
};

/// A record that has one entry in the list of differences.
pub trait Record {
    /// The name, if records of this kind have one.
    fn name(&self) -> Option<Quoted<'_>> {
        None
    }

    /// Appends the fields that differ, except the name.
    fn put_fields(&self, other: &Self, fields: &mut Fields);
}

/// `song 1: only in A`, or the fields that differ: `instrument 2 "organ": volume 64, 60; no loop, forward loop 16 + 48`. The name is after
/// the number if it is the same in both modules. None if nothing differs.
pub fn put_record<Item: Record>(
    text: &mut String,
    noun: &str,
    number: usize,
    records: [Option<Item>; 2],
) -> Option<()> {
    put!(text; noun, " ", number);
    match records {
        [Some(one), Some(other)] => put_differing(text, &one, &other)?,
        [Some(_), None] => put!(text; ": only in A"),
        [None, Some(_)] => put!(text; ": only in B"),
        [None, None] => return None,
    }
    Some(())
}

fn put_differing<Item: Record>(text: &mut String, one: &Item, other: &Item) -> Option<()> {
    let names = one.name().zip(other.name());
    match &names {
        Some((name, same)) if name == same => put!(text; " ", *name),
        _ => {}
    }
    let mut fields = Fields::new(text);
    if let Some((name, other_name)) = names {
        fields.put("name ", name, other_name);
    }
    one.put_fields(other, &mut fields);
    fields.any()
}

impl Record for &Song<'_> {
    fn name(&self) -> Option<Quoted<'_>> {
        Some(Quoted(self.name))
    }

    fn put_fields(&self, other: &Self, fields: &mut Fields) {
        fields.put("length ", self.length(), other.length());
        fields.put_items(&ENTRY, self.playlist(), other.playlist());
    }
}

impl Record for &Instrument {
    fn name(&self) -> Option<Quoted<'_>> {
        Some(Quoted(&self.name))
    }

    fn put_fields(&self, other: &Self, fields: &mut Fields) {
        fields.put("", SampleWords(self.sample), SampleWords(other.sample));
        fields.put("volume ", self.volume, other.volume);
        fields.put("panning ", self.panning, other.panning);
        fields.put("rate ", self.rate, other.rate);
        fields.put("", LoopWords::of(self), LoopWords::of(other));
        // If the kinds differ, the words for the loops show it.
        if self.loop_kind() == other.loop_kind() {
            fields.put("flags ", self.flags, other.flags);
        }
    }
}

impl Record for &Envelope<'_> {
    fn put_fields(&self, other: &Self, fields: &mut Fields) {
        fields.put("instrument ", self.instrument, other.instrument);
        fields.put("flags ", self.flags, other.flags);
        fields.put("sections ", self.sections, other.sections);
        fields.put("first sustain ", self.first_sustain, other.first_sustain);
        fields.put("loop first ", self.loop_first, other.loop_first);
        fields.put("loop last ", self.loop_last, other.loop_last);
        fields.put("second sustain ", self.second_sustain, other.second_sustain);
        let words = |(position, value)| PointWords(position, value);
        let [one, other] = [self, other].map(|it| it.points().map(words));
        fields.put_items(&POINT, one, other);
    }
}

/// A sample with its frames.
pub struct SampleFrames<'m> {
    pub sample: &'m Sample,
    pub frames: &'m [u8],
}

impl<'m> SampleFrames<'m> {
    fn each_frame(&self) -> impl Iterator<Item = Frame<'m>> {
        let frame_bytes = usize::from(self.sample.width / 8).max(1);
        self.frames.chunks_exact(frame_bytes).map(Frame)
    }
}

/// The bytes of a frame, printed as one signed number.
#[derive(PartialEq, Eq)]
struct Frame<'m>(&'m [u8]);

impl Piece for Frame<'_> {
    fn put(&self, text: &mut String) {
        let negative = self.0.first().is_some_and(|&byte| byte >= 0x80);
        let start = if negative { -1 } else { 0 };
        let join = |number: i32, &byte: &u8| number << 8 | i32::from(byte);
        put!(text; self.0.iter().fold(start, join));
    }
}

impl Record for SampleFrames<'_> {
    fn put_fields(&self, other: &Self, fields: &mut Fields) {
        fields.put("", FrameWords(self.sample), FrameWords(other.sample));
        if self.sample == other.sample {
            fields.put_items(&FRAME, self.each_frame(), other.each_frame());
        }
    }
}

impl Record for PatternSize {
    fn put_fields(&self, other: &Self, fields: &mut Fields) {
        fields.put("", *self, *other);
    }
}
