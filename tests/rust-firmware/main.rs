//! A firmware in Rust that logs as defmt 0.3 does, built for the machine it is tested on.
//!
//! It writes the recording of its statements, or with the word `lines` the lines that are due.

mod format;
mod wire;

use format::{Debug2Format, Display2Format, Format, Writes, Written, interned, list, value};
use std::io::Write;
use wire::{Message, code};

/// A stamp of 97,384,250,125 microseconds, and its text under the hint that the firmware is built with.
macro_rules! stamp {
    ($($name:literal $text:literal $number:literal $due:literal),*) => {
        $(
            #[cfg(stamp = $name)]
            fn stamp(to: &mut Message) {
                interned!("timestamp", $text);
                let number: u64 = $number;
                to.bytes(&number.to_le_bytes());
            }
            #[cfg(stamp = $name)]
            const STAMP: &str = $due;
        )*
    };
}
stamp!(
    "plain" "{=u64}" 97384250125 "97384250125",
    "us" "{=u64:us}" 97384250125 "97384.250125",
    "ms" "{=u64:ms}" 97384250 "97384.250",
    "ts" "{=u64:ts}" 97384 "1:03:03:04",
    "tms" "{=u64:tms}" 97384250 "1:03:03:04.250",
    "tus" "{=u64:tus}" 97384250125 "1:03:03:04.250125",
    "iso8601s" "{=u64:iso8601s}" 1796040000 "2026-11-30T12:00:00Z",
    "iso8601ms" "{=u64:iso8601ms}" 1796040000250 "2026-11-30T12:00:00.250Z"
);

/// The messages so far, with the line that is due of each.
#[derive(Default)]
struct Log {
    recording: Vec<u8>,
    lines: Vec<String>,
}

impl Log {
    fn say(&mut self, index: u16, level: &str, due: &str, arguments: impl FnOnce(&mut Message)) {
        let mut message = Message::default();
        message.index(index);
        stamp(&mut message);
        arguments(&mut message);
        self.recording.push(0);
        self.recording.extend(code(&message.0));
        self.recording.push(0);
        // a println line has neither a stamp nor a level
        self.lines.push(if level.is_empty() { due.into() } else { format!("{STAMP} {level}{due}") });
    }
}

macro_rules! say {
    ($log:expr, $tag:literal $level:literal, $data:literal, $due:expr, $arguments:expr) => {
        $log.say(interned!($tag, $data), $level, $due, $arguments)
    };
}

// `#[derive(Format)] struct Pose { x: f32, y: f32, tilt: Tilt }`
struct Pose {
    x: f32,
    y: f32,
    tilt: Tilt,
}

impl Format for Pose {
    fn string(&self) -> u16 {
        interned!("derived", "Pose {{ x: {=f32}, y: {=f32}, tilt: {=?} }}")
    }
    fn data(&self, to: &mut Message) {
        self.x.data(to);
        self.y.data(to);
        value(to, &self.tilt);
    }
}

// `#[derive(Format)] enum Tilt { Level, By(i16), Ramp { from: u8, to: u8 } }`
enum Tilt {
    Level,
    By(i16),
    Ramp { from: u8, to: u8 },
}

impl Format for Tilt {
    fn string(&self) -> u16 {
        interned!("derived", "Level|By({=i16})|Ramp {{ from: {=u8}, to: {=u8} }}")
    }
    fn data(&self, to: &mut Message) {
        match self {
            Tilt::Level => to.bytes(&[0]),
            Tilt::By(degrees) => {
                to.bytes(&[1]);
                degrees.data(to);
            }
            Tilt::Ramp { from, to: end } => {
                to.bytes(&[2]);
                from.data(to);
                end.data(to);
            }
        }
    }
}

// A type whose `Format` is written by hand.
struct Registers(Vec<(u8, u32)>);

impl Writes for Registers {
    fn write(&self, to: &mut Message) {
        to.index(interned!("write", "registers:"));
        for (number, bits) in &self.0 {
            to.index(interned!("write", " r{=u8}={=u32:#010x}"));
            to.bytes(&[*number]);
            to.bytes(&bits.to_le_bytes());
        }
    }
}

// One of these in another.
struct Pair(Registers, f64);

impl Writes for Pair {
    fn write(&self, to: &mut Message) {
        to.index(interned!("write", "<{=?}>"));
        to.index(interned!("prim", "{=__internal_FormatSequence}"));
        self.0.write(to);
        to.index(0);
        to.index(interned!("write", " at {=?:x}"));
        value(to, &self.1);
    }
}

fn numbers(log: &mut Log) {
    for (bits, due) in [
        (0.1f32, "0.1"), (-0.0, "-0.0"), (1.0, "1.0"), (3.402_823_5e38, "3.4028235e38"),
        (f32::NAN, "NaN"), (f32::NEG_INFINITY, "-inf"), (1.234e13, "1.234e13"),
    ] {
        say!(log, "info" "INFO  ", "f32 {=f32}", &format!("f32 {due}"), |m| bits.data(m));
    }
    for (bits, due) in [(0.1f64 + 0.2, "0.30000000000000004"), (1e20, "1e20"), (5e-324, "5e-324"), (f64::INFINITY, "inf")] {
        say!(log, "debug" "DEBUG ", "f64 {=f64:02}", &format!("f64 {due}"), |m| bits.data(m));
    }
    say!(log, "info" "INFO  ", "pad {=u8:03} {=i16:05} {0=u8:02}", "pad 007 -0042 07", |m| {
        m.bytes(&[7]);
        m.bytes(&(-42i16).to_le_bytes());
    });
    say!(log, "warn" "WARN  ", "at {=u32:iso8601s}, up {=u64:tms}", "at 2000-02-29T00:00:00Z, up 213503982334:14:25:51.615", |m| {
        m.bytes(&951_782_400u32.to_le_bytes());
        m.bytes(&u64::MAX.to_le_bytes());
    });
    say!(log, "info" "INFO  ", "mode {0=0..4} speed {0=4..10:ts} raw {0=4..10}", "mode 9 speed 00:00:37 raw 37", |m| {
        m.bytes(&0b10_0101_1001u16.to_le_bytes());
    });
}

fn values(log: &mut Log) {
    let poses = [
        (Pose { x: 1.5, y: -2.25, tilt: Tilt::Level }, "Pose { x: 1.5, y: -2.25, tilt: Level }"),
        (Pose { x: 0.0, y: 1e-7, tilt: Tilt::By(-30) }, "Pose { x: 0.0, y: 1e-7, tilt: By(-30) }"),
        (Pose { x: 9.0, y: 9.5, tilt: Tilt::Ramp { from: 1, to: 9 } }, "Pose { x: 9.0, y: 9.5, tilt: Ramp { from: 1, to: 9 } }"),
    ];
    for (pose, due) in &poses {
        say!(log, "info" "INFO  ", "pose {=?}", &format!("pose {due}"), |m| value(m, pose));
    }
    let tilts = [Tilt::By(1), Tilt::Level, Tilt::By(2)];
    say!(log, "info" "INFO  ", "tilts {=[?]}", "tilts [By(1), Level, By(2)]", |m| {
        m.length(tilts.len());
        list(m, &tilts);
    });
    say!(log, "info" "INFO  ", "pair {=[?; 2]} {=[u8]:#04x} {=[u8; 3]:a}", "pair [0.5, 4.0] [0x00, 0xff] b\"ab\\n\"", |m| {
        list(m, &[0.5f32, 4.0]);
        m.length(2);
        m.bytes(&[0, 255]);
        m.bytes(b"ab\n");
    });
    for (it, due) in [(None, "None"), (Some("north"), "Some(\"north\")")] {
        say!(log, "trace" "TRACE ", "way {=?:?}", &format!("way {due}"), |m| value(m, &it));
    }
    for (it, due) in [(Ok((true, 8u16)), "Ok((true, 8))"), (Err(2.5f64), "Err(2.5)")] {
        say!(log, "error" "ERROR ", "done {=?}", &format!("done {due}"), |m| value(m, &it));
    }
    say!(log, "info" "INFO  ", "wide {=u128} {=i64}", "wide 340282366920938463463374607431768211455 -5", |m| {
        u128::MAX.data(m);
        (-5i64).data(m);
    });
    let empty: &[u8] = &[];
    say!(log, "info" "INFO  ", "none {=?}", "none []", |m| value(m, &empty));
}

fn texts(log: &mut Log) {
    let map = std::collections::BTreeMap::from([("left", 1), ("right", 2)]);
    say!(log, "info" "INFO  ", "map {=?}", "map {\"left\": 1, \"right\": 2}", |m| value(m, &Debug2Format(&map)));
    let address = std::net::Ipv4Addr::new(10, 0, 0, 7);
    say!(log, "info" "INFO  ", "from {=?:04x} \u{b0}", "from 10.0.0.7 \u{b0}", |m| value(m, &Display2Format(&address)));
    say!(log, "println" "", "{=?}{=?}", "\u{e9}\u{20ac}()", |m| {
        value(m, &Display2Format(&"\u{e9}\u{20ac}"));
        value(m, &Debug2Format(&()));
    });
    let registers = |many: u8| Registers((0..many).map(|it| (it, u32::from(it) << 28 | 1)).collect());
    say!(log, "info" "INFO  ", "{=?}", "registers: r0=0x00000001 r1=0x10000001", |m| value(m, &Written(registers(2))));
    say!(log, "info" "INFO  ", "{=?}.", "<registers:> at 2.5.", |m| value(m, &Written(Pair(registers(0), 2.5))));
    let many = [Written(registers(1)), Written(registers(0))];
    say!(log, "info" "INFO  ", "all {=[?]}", "all [registers: r0=0x00000001, registers:]", |m| {
        m.length(many.len());
        list(m, &many);
    });
    say!(log, "info" "INFO  ", "mail to a@b.c: {=str}", "mail to a@b.c: sent", |m| m.text("sent"));
}

fn main() {
    let mut log = Log::default();
    numbers(&mut log);
    values(&mut log);
    texts(&mut log);
    let mut out = std::io::stdout().lock();
    if std::env::args().nth(1).as_deref() == Some("lines") {
        for line in &log.lines {
            writeln!(out, "{line}").unwrap();
        }
    } else {
        out.write_all(&log.recording).unwrap();
    }
}
