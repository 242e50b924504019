//! Runs the static library beside a second implementation of its requirements, on random commands, moves and sweeps, and
//! compares every answer and every byte of memory. The second one is written from the requirements, with sets of
//! booleans and loops over queues, and shares nothing with the library. The library is called through the inline functions
//! of its header, each of which has a symbol by header.c.
//!
//! Arguments: the seed (default 1), the limit in seconds (default 120), and the most steps (default none).
//! The same seed makes the same steps; the limits only end the run. Exit status 0: nothing differed, and each of the eight
//! refusals was met, also by a line of the console, and each that an assignment by number can have.
//!
//! With `console`, a seed, a number of lines (default 100,000) and a path (default target/bin/console) it starts that
//! program instead, and compares its answers with the second implementation's: to a random input that is written in random
//! parts, to short inputs, and in a dialogue, where each answer is awaited before the next line is sent. Exit status 0:
//! nothing differed, and each form of an answer was met.

use std::collections::BTreeMap;
use std::fmt;
use std::io::{Read, Write};
use std::os::raw::c_int;
use std::process::{Child, ChildStdin, Command, Stdio};
use std::sync::mpsc::{channel, Receiver, RecvTimeoutError};
use std::thread;
use std::time::{Duration, Instant};

const WORDS: usize = 406;
const QUEUES: usize = 65_536;
const SLOTS: usize = 8;
const MASKS_BYTES: usize = 96;
const CONFIG_BYTES: usize = 352;
const CONTROLS_BYTES: usize = 1_280;
const NAME_BYTES: usize = 14;
/// The most bytes of a line of the console, and the bytes of its longest answer line.
const LINE_BYTES: usize = 1_024;
const ANSWER_BYTES: usize = 22;
const NAMES: [(u8, &str); 8] = [
    (2, "ENOENT"),
    (16, "EBUSY"),
    (17, "EEXIST"),
    (19, "ENODEV"),
    (22, "EINVAL"),
    (28, "ENOSPC"),
    (98, "EADDRINUSE"),
    (99, "EADDRNOTAVAIL"),
];
const MOVED: [(u8, &str); 4] = [(0, "idle"), (1, "released"), (2, "host"), (3, "passthrough")];

/// Steps of the full phase, after each of which everything that can be asked is asked.
const FULL_STEPS: u64 = 4_000;
/// In the long phase the queues are asked about after each step, and the rest after each of these many.
const SAMPLE: u64 = 64;
/// Guard places on either side of what is lent.
const EDGE: usize = 64;

// ---------------------------------------------------------------------------------------------------------------------
// The requirements once more.
// ---------------------------------------------------------------------------------------------------------------------

type Id = [u8; 16];

const ADAPTER: usize = 0;
const DOMAIN: usize = 1;
const CONTROL: usize = 2;
const KINDS: [&str; 3] = ["adapter", "domain", "control domain"];
/// The same at the console.
const KIND_WORDS: [&str; 3] = ["adapter", "domain", "control"];

/// The two matrices of a device.
const ASSIGNED: usize = 0;
const GUEST: usize = 1;

/// A set of numbers 0 to 255.
#[derive(Clone, Copy)]
struct Set([bool; 256]);

impl Set {
    const NONE: Set = Set([false; 256]);
    const ALL: Set = Set([true; 256]);

    fn has(&self, n: usize) -> bool {
        self.0[n]
    }

    /// Byte 0 holds bits 0 to 7, and bit 0 is its most significant bit.
    fn of_bytes(bytes: &[u8]) -> Set {
        let mut set = Set::NONE;
        for (k, byte) in bytes.iter().enumerate() {
            for j in 0..8 {
                set.0[8 * k + j] = byte & (128 >> j) != 0;
            }
        }
        set
    }

    fn bytes(&self) -> [u8; 32] {
        let mut bytes = [0; 32];
        for (k, eight) in self.0.chunks(8).enumerate() {
            bytes[k] = eight.iter().fold(0, |byte, &bit| byte << 1 | bit as u8);
        }
        bytes
    }

    fn of_words(words: &[u64]) -> Set {
        let bytes: Vec<u8> = words.iter().flat_map(|w| w.to_be_bytes()).collect();
        Set::of_bytes(&bytes)
    }

    fn words(&self) -> [u64; 4] {
        let bytes = self.bytes();
        let mut words = [0; 4];
        for (k, eight) in bytes.chunks(8).enumerate() {
            words[k] = u64::from_be_bytes(eight.try_into().unwrap());
        }
        words
    }

    fn any_above(&self, limit: u64) -> bool {
        (0..256).any(|n| n as u64 > limit && self.has(n))
    }
}

fn without_newline(text: &[u8]) -> &[u8] {
    text.strip_suffix(b"\n").unwrap_or(text)
}

/// A number without its newline, or nothing where the text is bad.
fn number(text: &[u8], most: u64) -> Option<u64> {
    if text.is_empty() || text.len() > 16 {
        return None;
    }
    let text = std::str::from_utf8(text).ok()?;
    let (digits, base) = match text.strip_prefix("0x") {
        Some(rest) => (rest, 16),
        None if text.starts_with('0') => (text, 8),
        None => (text, 10),
    };
    // from_str_radix would take a sign
    if !digits.chars().all(|c| c.is_digit(base)) {
        return None;
    }
    let value = u64::from_str_radix(digits, base).ok()?;
    (value <= most).then_some(value)
}

/// A mask, or nothing where the text is bad.
fn mask(text: &[u8], old: &Set) -> Option<Set> {
    let text = without_newline(text);
    if let Some(digits) = text.strip_prefix(b"0x") {
        if digits.is_empty() || digits.len() > 64 {
            return None;
        }
        let mut set = Set::NONE;
        for (k, &c) in digits.iter().enumerate() {
            let digit = (c as char).to_digit(16)?;
            for j in 0..4 {
                set.0[4 * k + j] = digit & (8 >> j) != 0;
            }
        }
        return Some(set);
    }
    let mut set = *old;
    for item in text.split(|&c| c == b',') {
        let (sign, rest) = item.split_first()?;
        let n = number(rest, 255)?;
        set.0[n as usize] = match sign {
            b'+' => true,
            b'-' => false,
            _ => return None,
        };
    }
    Some(set)
}

/// The id of 32 hex digits, or nothing where the text is bad.
fn id_text(text: &[u8]) -> Option<Id> {
    if text.len() != 32 {
        return None;
    }
    let mut id = [0; 16];
    for (k, &c) in text.iter().enumerate() {
        id[k / 2] = id[k / 2] << 4 | (c as char).to_digit(16)? as u8;
    }
    Some(id)
}

/// The configuration of three masks in hex form and 512 hex digits, or nothing where the text is bad.
fn configuration_text(masks: [&[u8]; 3], types: &[u8]) -> Option<Vec<u8>> {
    let mut bytes = Vec::new();
    for text in masks {
        text.strip_prefix(b"0x")?;
        bytes.extend(mask(text, &Set::NONE)?.bytes());
    }
    if types.len() != 512 {
        return None;
    }
    for pair in types.chunks(2) {
        let digits = [(pair[0] as char).to_digit(16)?, (pair[1] as char).to_digit(16)?];
        bytes.push((16 * digits[0] + digits[1]) as u8);
    }
    Some(bytes)
}

#[derive(Clone, Copy, PartialEq, Debug)]
enum Driver {
    Unbound,
    Host,
    Passthrough,
}

#[derive(Clone, Copy)]
struct Device {
    // any value but 0 is yes
    present: u64,
    open: u64,
    id: Id,
    assigned: [Set; 3],
}

const NO_DEVICE: Device = Device { present: 0, open: 0, id: [0; 16], assigned: [Set::NONE; 3] };

impl Device {
    fn has_queue(&self, apid: usize, apqi: usize) -> bool {
        self.present != 0 && self.assigned[ADAPTER].has(apid) && self.assigned[DOMAIN].has(apqi)
    }
}

/// The record, kept so that every bit of the memory follows from it.
struct Record {
    highest: [u64; 2],
    apmask: Set,
    aqmask: Set,
    configured: [Set; 3],
    types: [u64; 256],
    devices: [Device; SLOTS],
    drivers: Vec<u8>,
}

/// What a listing gives: the answer, the bytes and the next place. A refused one writes neither of the two numbers, and
/// its caller stays where it was.
struct Listing {
    answer: u8,
    bytes: Vec<u8>,
    next: usize,
}

impl Record {
    fn new() -> Record {
        Record {
            highest: [0; 2],
            apmask: Set::ALL,
            aqmask: Set::ALL,
            configured: [Set::NONE; 3],
            types: [0; 256],
            devices: [NO_DEVICE; SLOTS],
            drivers: vec![0; QUEUES],
        }
    }

    fn read(words: &[u64], drivers: &[u8]) -> Record {
        let set = |at: usize| Set::of_words(&words[at..at + 4]);
        let mut record = Record::new();
        record.highest = [words[0], words[1]];
        record.apmask = set(2);
        record.aqmask = set(6);
        record.configured = [set(10), set(14), set(18)];
        record.types.copy_from_slice(&words[22..278]);
        for p in 0..SLOTS {
            let at = 278 + 16 * p;
            let mut id = [0; 16];
            id[..8].copy_from_slice(&words[at + 2].to_be_bytes());
            id[8..].copy_from_slice(&words[at + 3].to_be_bytes());
            record.devices[p] = Device {
                present: words[at],
                open: words[at + 1],
                id,
                assigned: [set(at + 4), set(at + 8), set(at + 12)],
            };
        }
        record.drivers.copy_from_slice(drivers);
        record
    }

    fn words(&self) -> Vec<u64> {
        let mut words = Vec::with_capacity(WORDS);
        words.extend(self.highest);
        words.extend(self.apmask.words());
        words.extend(self.aqmask.words());
        for set in &self.configured {
            words.extend(set.words());
        }
        words.extend(self.types);
        for device in &self.devices {
            let (hi, lo) = halves(&device.id);
            words.extend([device.present, device.open, hi, lo]);
            for set in &device.assigned {
                words.extend(set.words());
            }
        }
        words
    }

    fn highest(&self, kind: usize) -> u64 {
        // control domains use the domain limit
        self.highest[kind.min(DOMAIN)].min(255)
    }

    fn find(&self, id: &Id) -> Option<usize> {
        (0..SLOTS).find(|&p| self.devices[p].present != 0 && self.devices[p].id == *id)
    }

    fn reserved(&self, apid: usize, apqi: usize) -> bool {
        self.apmask.has(apid) && self.aqmask.has(apqi)
    }

    fn driver(&self, apid: usize, apqi: usize) -> Driver {
        match self.drivers[apid * 256 + apqi] {
            1 => Driver::Host,
            2 => Driver::Passthrough,
            _ => Driver::Unbound,
        }
    }

    fn target(&self, apid: usize, apqi: usize) -> Driver {
        if !self.configured[ADAPTER].has(apid) || !self.configured[DOMAIN].has(apqi) {
            Driver::Unbound
        } else if self.reserved(apid, apqi) {
            Driver::Host
        } else if self.types[apid] >= 10 {
            Driver::Passthrough
        } else {
            Driver::Unbound
        }
    }

    fn fresh(&mut self, adapter: u64, domain: u64) -> u8 {
        if adapter > 255 || domain > 255 {
            return 22;
        }
        *self = Record::new();
        self.highest = [adapter, domain];
        0
    }

    fn create(&mut self, id: &Id) -> u8 {
        if self.find(id).is_some() {
            return 17;
        }
        match self.devices.iter().position(|v| v.present == 0) {
            None => 28,
            Some(p) => {
                self.devices[p] = Device { present: 1, id: *id, ..NO_DEVICE };
                0
            }
        }
    }

    fn remove(&mut self, id: &Id) -> u8 {
        match self.find(id) {
            None => 2,
            Some(p) if self.devices[p].open != 0 => 16,
            Some(p) => {
                self.devices[p] = NO_DEVICE;
                0
            }
        }
    }

    fn open(&mut self, id: &Id) -> u8 {
        match self.find(id) {
            None => 2,
            Some(p) if self.devices[p].open != 0 => 16,
            Some(p) => {
                self.devices[p].open = 1;
                0
            }
        }
    }

    fn close(&mut self, id: &Id) -> u8 {
        match self.find(id) {
            None => 2,
            Some(p) if self.devices[p].open == 0 => 22,
            Some(p) => {
                self.devices[p].open = 0;
                0
            }
        }
    }

    fn assign(&mut self, id: &Id, kind: usize, text: &[u8]) -> u8 {
        number(without_newline(text), 65_535).map_or(22, |n| self.assign_number(id, kind, n))
    }

    fn assign_number(&mut self, id: &Id, kind: usize, n: u64) -> u8 {
        let p = match self.find(id) {
            None => return 2,
            Some(p) => p,
        };
        if n > self.highest(kind) {
            return 19;
        }
        let n = n as usize;
        let device = self.devices[p];
        if device.assigned[kind].has(n) {
            return 0;
        }
        let mut new = Vec::new();
        for other in 0..256 {
            if kind == ADAPTER && device.assigned[DOMAIN].has(other) {
                new.push((n, other));
            }
            if kind == DOMAIN && device.assigned[ADAPTER].has(other) {
                new.push((other, n));
            }
        }
        if new.iter().any(|&(a, d)| self.reserved(a, d)) {
            return 99;
        }
        let elsewhere = |a, d| (0..SLOTS).any(|o| o != p && self.devices[o].has_queue(a, d));
        if new.iter().any(|&(a, d)| elsewhere(a, d)) {
            return 98;
        }
        self.devices[p].assigned[kind].0[n] = true;
        0
    }

    fn unassign(&mut self, id: &Id, kind: usize, text: &[u8]) -> u8 {
        number(without_newline(text), 65_535).map_or(22, |n| self.unassign_number(id, kind, n))
    }

    fn unassign_number(&mut self, id: &Id, kind: usize, n: u64) -> u8 {
        let p = match self.find(id) {
            None => return 2,
            Some(p) => p,
        };
        if n > self.highest(kind) {
            return 19;
        }
        self.devices[p].assigned[kind].0[n as usize] = false;
        0
    }

    fn takes_assigned(&self, apmask: &Set, aqmask: &Set) -> bool {
        for device in &self.devices {
            for apid in (0..256).filter(|&a| apmask.has(a)) {
                for apqi in (0..256).filter(|&d| aqmask.has(d)) {
                    if device.has_queue(apid, apqi) {
                        return true;
                    }
                    // no queue of this adapter
                    if !device.assigned[ADAPTER].has(apid) {
                        break;
                    }
                }
            }
        }
        false
    }

    fn set_apmask(&mut self, text: &[u8]) -> u8 {
        let new = match mask(text, &self.apmask) {
            None => return 22,
            Some(new) => new,
        };
        if self.takes_assigned(&new, &self.aqmask) {
            return 98;
        }
        self.apmask = new;
        0
    }

    fn set_aqmask(&mut self, text: &[u8]) -> u8 {
        let new = match mask(text, &self.aqmask) {
            None => return 22,
            Some(new) => new,
        };
        if self.takes_assigned(&self.apmask, &new) {
            return 98;
        }
        self.aqmask = new;
        0
    }

    fn configure(&mut self, bytes: &[u8]) -> u8 {
        let new = [Set::of_bytes(&bytes[..32]), Set::of_bytes(&bytes[32..64]), Set::of_bytes(&bytes[64..96])];
        if (0..3).any(|kind| new[kind].any_above(self.highest(kind))) {
            return 19;
        }
        let old = self.configured;
        self.configured = new;
        for apid in 0..256 {
            self.types[apid] = if new[ADAPTER].has(apid) { bytes[96 + apid] as u64 } else { 0 };
            for apqi in 0..256 {
                let before = old[ADAPTER].has(apid) && old[DOMAIN].has(apqi);
                let after = new[ADAPTER].has(apid) && new[DOMAIN].has(apqi);
                if before && !after {
                    self.drivers[apid * 256 + apqi] = 0;
                }
            }
        }
        0
    }

    /// The configuration in the form in which it is set. Only a handed-in record has a type that is no byte.
    fn configuration(&self) -> Vec<u8> {
        let mut bytes: Vec<u8> = self.configured.iter().flat_map(|set| set.bytes()).collect();
        bytes.extend(self.types.iter().map(|&t| t.min(255) as u8));
        bytes
    }

    /// 0 idle, 1 released, 2 bound to host, 3 bound to passthrough.
    fn move_queue(&mut self, apid: usize, apqi: usize) -> u8 {
        let (driver, target) = (self.driver(apid, apqi), self.target(apid, apqi));
        let (answer, byte) = match (driver, target) {
            (d, t) if d == t => return 0,
            (Driver::Unbound, Driver::Host) => (2, 1),
            (Driver::Unbound, Driver::Passthrough) => (3, 2),
            _ => (1, 0),
        };
        self.drivers[apid * 256 + apqi] = byte;
        answer
    }

    fn remaining(&self) -> u32 {
        let mut sum = 0;
        for apid in 0..256 {
            for apqi in 0..256 {
                let (driver, target) = (self.driver(apid, apqi), self.target(apid, apqi));
                if driver != target {
                    sum += if driver != Driver::Unbound && target != Driver::Unbound { 2 } else { 1 };
                }
            }
        }
        sum
    }

    /// The moves used, and whether any remain.
    fn sweep(&mut self, budget: u32) -> (u32, bool) {
        let budget = budget.min(131_072);
        let mut used = 0;
        for apid in 0..256 {
            for apqi in 0..256 {
                while used < budget && self.move_queue(apid, apqi) != 0 {
                    used += 1;
                }
            }
        }
        (used, self.remaining() != 0)
    }

    /// The guest masks of the device in a slot.
    fn guest(&self, p: usize) -> [Set; 3] {
        let assigned = &self.devices[p].assigned;
        let mut guest = [Set::NONE; 3];
        for n in 0..256 {
            guest[DOMAIN].0[n] = assigned[DOMAIN].has(n) && self.configured[DOMAIN].has(n);
            // a usage domain is a control domain too
            let as_either = |sets: &[Set; 3]| sets[CONTROL].has(n) || sets[DOMAIN].has(n);
            guest[CONTROL].0[n] = as_either(assigned) && as_either(&self.configured);
        }
        for n in 0..256 {
            guest[ADAPTER].0[n] = self.guest_adapter(p, n);
        }
        guest
    }

    /// Whether the guest gets an adapter: one queue that is not bound to passthrough drops it.
    fn guest_adapter(&self, p: usize, apid: usize) -> bool {
        let assigned = &self.devices[p].assigned;
        let kept = |d: usize| assigned[DOMAIN].has(d) && self.configured[DOMAIN].has(d);
        assigned[ADAPTER].has(apid)
            && self.configured[ADAPTER].has(apid)
            && (0..256).all(|d| !kept(d) || self.driver(apid, d) == Driver::Passthrough)
    }

    fn usable(&self, id: &Id, apid: usize, apqi: usize) -> bool {
        let p = match self.find(id) {
            None => return false,
            Some(p) => p,
        };
        let device = &self.devices[p];
        device.open != 0
            && device.assigned[DOMAIN].has(apqi)
            && self.configured[DOMAIN].has(apqi)
            && self.guest_adapter(p, apid)
    }

    /// The id of the device whose matrix has a queue: of two, as only a handed-in record has them, the lower slot's.
    fn holder(&self, apid: usize, apqi: usize) -> Option<Id> {
        self.devices.iter().find(|v| v.has_queue(apid, apqi)).map(|v| v.id)
    }

    fn matrix(&self, p: usize, matrix: usize) -> [Set; 3] {
        if matrix == ASSIGNED {
            self.devices[p].assigned
        } else {
            self.guest(p)
        }
    }

    /// The text that lists a device's control domains.
    fn controls(&self, p: usize) -> String {
        (0..256).filter(|&n| self.devices[p].assigned[CONTROL].has(n)).map(|n| format!("{n:04x}\n")).collect()
    }

    fn list(&self, id: &Id, matrix: usize, place: usize, length: usize) -> Listing {
        let refused = |answer| Listing { answer, bytes: Vec::new(), next: place };
        let p = match self.find(id) {
            None => return refused(2),
            Some(p) => p,
        };
        if length < 8 {
            return refused(28);
        }
        let sets = self.matrix(p, matrix);
        let mut bytes = Vec::new();
        let mut past = 0;
        for queue in place.min(QUEUES)..QUEUES {
            let (apid, apqi) = (queue / 256, queue % 256);
            if !sets[ADAPTER].has(apid) || !sets[DOMAIN].has(apqi) {
                continue;
            }
            if bytes.len() + 8 > length {
                return Listing { answer: 0, bytes, next: past };
            }
            bytes.extend(format!("{apid:02x}.{apqi:04x}\n").bytes());
            past = queue + 1;
        }
        Listing { answer: 0, bytes, next: QUEUES }
    }

    /// Carries out a line of the console. Answers its answer line, without the newline.
    fn console(&mut self, line: &[u8]) -> String {
        let words: Vec<&[u8]> = line.split(|&c| c == b' ').collect();
        let answer = match words[..] {
            // a text may end with a newline, but a line holds none
            _ if line.len() > LINE_BYTES || line.contains(&b'\n') => 22,
            [b"create", id] => id_text(id).map_or(22, |id| self.create(&id)),
            [b"remove", id] => id_text(id).map_or(22, |id| self.remove(&id)),
            [b"open", id] => id_text(id).map_or(22, |id| self.open(&id)),
            [b"close", id] => id_text(id).map_or(22, |id| self.close(&id)),
            [word @ (b"assign" | b"unassign"), id, kind, text] => {
                let kind = KIND_WORDS.iter().position(|word| word.as_bytes() == kind);
                match (id_text(id), kind) {
                    (Some(id), Some(kind)) if word == b"assign" => self.assign(&id, kind, text),
                    (Some(id), Some(kind)) => self.unassign(&id, kind, text),
                    _ => 22,
                }
            }
            [b"apmask", text] => self.set_apmask(text),
            [b"aqmask", text] => self.set_aqmask(text),
            [b"config", adapters, domains, controls, types] => {
                let bytes = configuration_text([adapters, domains, controls], types);
                bytes.map_or(22, |bytes| self.configure(&bytes))
            }
            [b"move", apid, apqi] => match (number(apid, 255), number(apqi, 255)) {
                (Some(a), Some(d)) => {
                    let moved = self.move_queue(a as usize, d as usize);
                    return format!("ok {}", MOVED[moved as usize].1);
                }
                _ => 22,
            },
            [b"sweep"] => return format!("ok {}", self.sweep(131_072).0),
            _ => 22,
        };
        match NAMES.iter().find(|(value, _)| *value == answer) {
            None => "ok".into(),
            Some((_, name)) => format!("refused {name}"),
        }
    }

    /// The answer lines to the lines of an input, of which the last may lack its newline.
    fn console_input(&mut self, input: &[u8]) -> Vec<String> {
        let mut lines: Vec<&[u8]> = input.split(|&c| c == b'\n').collect();
        // what follows the last newline counts unless it is empty
        if lines.last().map_or(false, |line| line.is_empty()) {
            lines.pop();
        }
        lines.iter().map(|line| self.console(line)).collect()
    }
}

fn halves(id: &Id) -> (u64, u64) {
    (u64::from_be_bytes(id[..8].try_into().unwrap()), u64::from_be_bytes(id[8..].try_into().unwrap()))
}

// ---------------------------------------------------------------------------------------------------------------------
// The library, and the memory that is lent to it.
// ---------------------------------------------------------------------------------------------------------------------

/// A record as C has it.
#[repr(C)]
pub struct Memory {
    words: [u64; WORDS],
    drivers: [u8; QUEUES],
}

const MEMORY_BYTES: usize = std::mem::size_of::<Memory>();
const _: () = assert!(MEMORY_BYTES == 68_784);

mod library {
    use super::Memory;
    use std::os::raw::c_int;

    extern "C" {
        pub fn header_fresh(record: *mut Memory, adapter: u64, domain: u64) -> c_int;
        pub fn header_highest_adapter(record: *const Memory) -> c_int;
        pub fn header_highest_domain(record: *const Memory) -> c_int;
        pub fn header_set_apmask(record: *mut Memory, text: *const u8, length: usize) -> c_int;
        pub fn header_set_aqmask(record: *mut Memory, text: *const u8, length: usize) -> c_int;
        pub fn header_apmask(record: *const Memory, mask: *mut u8);
        pub fn header_aqmask(record: *const Memory, mask: *mut u8);
        pub fn header_configure(record: *mut Memory, configuration: *const u8) -> c_int;
        pub fn header_configuration(record: *const Memory, configuration: *mut u8);
        pub fn header_move(record: *mut Memory, apid: u8, apqi: u8) -> c_int;
        pub fn header_sweep(record: *mut Memory, budget: u32, more: *mut u8) -> u32;
        pub fn header_remaining(record: *const Memory) -> u32;
        pub fn header_driver(record: *const Memory, apid: u8, apqi: u8) -> c_int;
        pub fn header_target(record: *const Memory, apid: u8, apqi: u8) -> c_int;
        pub fn header_holder(record: *const Memory, apid: u8, apqi: u8, id: *mut u8) -> c_int;
        pub fn header_usable(record: *const Memory, id: *const u8, apid: u8, apqi: u8) -> c_int;
        pub fn header_create(record: *mut Memory, id: *const u8) -> c_int;
        pub fn header_remove(record: *mut Memory, id: *const u8) -> c_int;
        pub fn header_open(record: *mut Memory, id: *const u8) -> c_int;
        pub fn header_close(record: *mut Memory, id: *const u8) -> c_int;
        pub fn header_device(record: *const Memory, slot: usize, id: *mut u8, open: *mut u8) -> c_int;
        fn header_assign_adapter(record: *mut Memory, id: *const u8, text: *const u8, length: usize) -> c_int;
        fn header_assign_domain(record: *mut Memory, id: *const u8, text: *const u8, length: usize) -> c_int;
        fn header_assign_control_domain(record: *mut Memory, id: *const u8, text: *const u8, length: usize) -> c_int;
        fn header_unassign_adapter(record: *mut Memory, id: *const u8, text: *const u8, length: usize) -> c_int;
        fn header_unassign_domain(record: *mut Memory, id: *const u8, text: *const u8, length: usize) -> c_int;
        fn header_unassign_control_domain(record: *mut Memory, id: *const u8, text: *const u8, length: usize) -> c_int;
        fn header_assign_adapter_number(record: *mut Memory, id: *const u8, number: u64) -> c_int;
        fn header_assign_domain_number(record: *mut Memory, id: *const u8, number: u64) -> c_int;
        fn header_assign_control_domain_number(record: *mut Memory, id: *const u8, number: u64) -> c_int;
        fn header_unassign_adapter_number(record: *mut Memory, id: *const u8, number: u64) -> c_int;
        fn header_unassign_domain_number(record: *mut Memory, id: *const u8, number: u64) -> c_int;
        fn header_unassign_control_domain_number(record: *mut Memory, id: *const u8, number: u64) -> c_int;
        fn header_matrix_masks(record: *const Memory, id: *const u8, masks: *mut u8) -> c_int;
        fn header_guest_matrix_masks(record: *const Memory, id: *const u8, masks: *mut u8) -> c_int;
        fn header_matrix(
            record: *const Memory,
            id: *const u8,
            place: usize,
            buffer: *mut u8,
            length: usize,
            written: *mut usize,
            next: *mut usize,
        ) -> c_int;
        fn header_guest_matrix(
            record: *const Memory,
            id: *const u8,
            place: usize,
            buffer: *mut u8,
            length: usize,
            written: *mut usize,
            next: *mut usize,
        ) -> c_int;
        pub fn header_control_domains(
            record: *const Memory,
            id: *const u8,
            text: *mut u8,
            written: *mut usize,
        ) -> c_int;
        pub fn header_line(
            record: *mut Memory,
            line: *const u8,
            length: usize,
            out: *mut u8,
            size: usize,
            written: *mut usize,
        ) -> c_int;
        pub fn header_errno_name(value: c_int, name: *mut u8) -> *const u8;
        pub fn header_moved_name(moved: c_int, name: *mut u8) -> *const u8;
    }

    // by kind

    pub type ByText = unsafe extern "C" fn(*mut Memory, *const u8, *const u8, usize) -> c_int;
    pub const ASSIGN: [ByText; 3] = [header_assign_adapter, header_assign_domain, header_assign_control_domain];
    pub const UNASSIGN: [ByText; 3] = [header_unassign_adapter, header_unassign_domain, header_unassign_control_domain];

    type ByNumber = unsafe extern "C" fn(*mut Memory, *const u8, u64) -> c_int;
    pub const ASSIGN_NUMBER: [ByNumber; 3] =
        [header_assign_adapter_number, header_assign_domain_number, header_assign_control_domain_number];
    pub const UNASSIGN_NUMBER: [ByNumber; 3] =
        [header_unassign_adapter_number, header_unassign_domain_number, header_unassign_control_domain_number];

    // by matrix

    type Masks = unsafe extern "C" fn(*const Memory, *const u8, *mut u8) -> c_int;
    pub const MASKS: [(&str, Masks); 2] =
        [("matrix_masks", header_matrix_masks), ("guest_matrix_masks", header_guest_matrix_masks)];

    type List = unsafe extern "C" fn(*const Memory, *const u8, usize, *mut u8, usize, *mut usize, *mut usize) -> c_int;
    pub const LIST: [(&str, List); 2] = [("matrix", header_matrix), ("guest_matrix", header_guest_matrix)];
}

/// A hash over numbers, in their order: the same on every machine, whatever the order of its bytes.
struct Hash(u64);

impl Hash {
    fn add(&mut self, n: u64) {
        self.0 = (self.0 ^ n).wrapping_mul(0x9e37_79b9_7f4a_7c15).rotate_left(32);
    }
}

/// What is lent, as a number.
trait Number: Copy + PartialEq + fmt::Debug {
    fn number(self) -> u64;
}

impl Number for u8 {
    fn number(self) -> u64 {
        self.into()
    }
}

impl Number for u64 {
    fn number(self) -> u64 {
        self
    }
}

impl Number for usize {
    fn number(self) -> u64 {
        self as u64
    }
}

/// Lent memory with guard places on either side.
struct Lent<T> {
    all: Vec<T>,
    /// All of it as it was lent.
    before: Vec<T>,
}

impl<T: Number> Lent<T> {
    fn new(inside: &[T], mut guard: impl FnMut() -> T) -> Lent<T> {
        let mut edge = || (0..EDGE).map(|_| guard()).collect::<Vec<T>>();
        let all = [&edge()[..], inside, &edge()[..]].concat();
        Lent { before: all.clone(), all }
    }

    fn lend(&mut self) -> *mut T {
        // from the whole, so that a write past the edge is still seen here
        unsafe { self.all.as_mut_ptr().add(EDGE) }
    }

    fn compare_guards(&self, name: &str) -> Result<(), String> {
        let end = self.all.len() - EDGE;
        if self.all[..EDGE] != self.before[..EDGE] || self.all[end..] != self.before[end..] {
            return Err(format!("{name}: written outside of what was lent"));
        }
        Ok(())
    }

    /// Compares all that was lent, and the guard places: what is in front now, and the rest, which is as it was. All of
    /// it goes into the hash.
    fn compare(&self, name: &str, front: &[T], hash: &mut Hash) -> Result<(), String> {
        let end = self.all.len() - EDGE;
        self.all.iter().for_each(|n| hash.add(n.number()));
        same(name, &self.all[EDGE..end], &[front, &self.before[EDGE + front.len()..end]].concat())?;
        self.compare_guards(name)
    }
}

/// What changes a record.
#[derive(Clone)]
enum Call {
    Fresh(u64, u64),
    Create(Id),
    Remove(Id),
    Open(Id),
    Close(Id),
    Assign(Id, usize, Vec<u8>),
    Unassign(Id, usize, Vec<u8>),
    AssignNumber(Id, usize, u64),
    UnassignNumber(Id, usize, u64),
    Apmask(Vec<u8>),
    Aqmask(Vec<u8>),
    Configure(Vec<u8>),
    Move(u8, u8),
    Sweep(u32),
    /// A line of the console, and the size of the buffer for its answer line.
    Line(Vec<u8>, usize),
}

fn hex(bytes: &[u8]) -> String {
    bytes.iter().map(|b| format!("{b:02x}")).collect()
}

impl fmt::Display for Call {
    fn fmt(&self, f: &mut fmt::Formatter) -> fmt::Result {
        match self {
            Call::Fresh(a, d) => write!(f, "fresh {a} {d}"),
            Call::Create(id) => write!(f, "create {}", hex(id)),
            Call::Remove(id) => write!(f, "remove {}", hex(id)),
            Call::Open(id) => write!(f, "open {}", hex(id)),
            Call::Close(id) => write!(f, "close {}", hex(id)),
            Call::Assign(id, kind, text) => {
                write!(f, "assign {} {} \"{}\"", hex(id), KINDS[*kind], text.escape_ascii())
            }
            Call::Unassign(id, kind, text) => {
                write!(f, "unassign {} {} \"{}\"", hex(id), KINDS[*kind], text.escape_ascii())
            }
            Call::AssignNumber(id, kind, n) => write!(f, "assign {} {} {n}", hex(id), KINDS[*kind]),
            Call::UnassignNumber(id, kind, n) => write!(f, "unassign {} {} {n}", hex(id), KINDS[*kind]),
            Call::Apmask(text) => write!(f, "apmask \"{}\"", text.escape_ascii()),
            Call::Aqmask(text) => write!(f, "aqmask \"{}\"", text.escape_ascii()),
            Call::Configure(bytes) => write!(f, "configure {}", hex(bytes)),
            Call::Move(apid, apqi) => write!(f, "move {apid} {apqi}"),
            Call::Sweep(budget) => write!(f, "sweep {budget}"),
            Call::Line(line, size) => write!(f, "line \"{}\", {size} bytes for its answer", line.escape_ascii()),
        }
    }
}

/// Both sides, and what has been counted.
struct Run {
    seed: u64,
    random: Random,
    record: Record,
    lent: Lent<u64>,
    phase: &'static str,
    /// Over every answer, all memory after each step, and every buffer lent.
    hash: Hash,
    steps: u64,
    accepted: u64,
    refused: [u64; 256],
    /// Of the commands that are given a number, by answer.
    by_number: [u64; 256],
    moves: [u64; 4],
    sweeps: u64,
    swept: u64,
    /// The last answer line of the console, without its newline.
    said: String,
    /// How often each form of it was given, and how often a line was not carried out.
    lines: BTreeMap<String, u64>,
    /// How often each reader gave each answer. A name counts as 1. What is not of a few values counts as 0.
    asked: BTreeMap<&'static str, BTreeMap<c_int, u64>>,
    fresh: u64,
    handed_in: u64,
    pokes: u64,
}

fn equal<T: PartialEq + fmt::Debug>(name: &str, got: T, expected: T) -> Result<(), String> {
    if got == expected {
        Ok(())
    } else {
        Err(format!("{name}: {got:?}, expected {expected:?}"))
    }
}

const NOT_CARRIED_OUT: &str = "not carried out";

/// The form of an answer line: the numbers of sweeps are one, but for 0.
fn form(said: &str) -> String {
    match said {
        "" => NOT_CARRIED_OUT.into(),
        "ok 0" => said.into(),
        _ if said.ends_with(|c: char| c.is_ascii_digit()) => "ok and a number".into(),
        _ => said.into(),
    }
}

/// The forms of an answer line that were not met.
fn forms_missing(met: &BTreeMap<String, u64>) -> Vec<String> {
    let mut forms: Vec<String> = vec!["ok".into(), "ok 0".into(), "ok and a number".into()];
    forms.extend(MOVED.iter().map(|(_, name)| format!("ok {name}")));
    forms.extend(NAMES.iter().map(|(_, name)| format!("refused {name}")));
    forms.retain(|form| !met.contains_key(form));
    forms
}

/// Two of equal length.
fn same<T: PartialEq + fmt::Debug>(name: &str, got: &[T], expected: &[T]) -> Result<(), String> {
    if got == expected {
        return Ok(());
    }
    let i = (0..got.len()).find(|&i| got[i] != expected[i]).unwrap();
    Err(format!("{name} {i}: {:?}, expected {:?}", got[i], expected[i]))
}

/// Bytes, eight at a time, as numbers.
fn eights(bytes: &[u8]) -> impl Iterator<Item = u64> + '_ {
    bytes.chunks_exact(8).map(|eight| u64::from_be_bytes(eight.try_into().unwrap()))
}

impl Run {
    fn new(seed: u64) -> Run {
        let mut random = Random::new(seed);
        let lent = Lent::new(&[0; MEMORY_BYTES / 8], || random.next());
        Run {
            seed,
            record: Record::read(&[0; WORDS], &[0; QUEUES]),
            random,
            lent,
            phase: "start",
            hash: Hash(0),
            steps: 0,
            accepted: 0,
            refused: [0; 256],
            by_number: [0; 256],
            moves: [0; 4],
            sweeps: 0,
            swept: 0,
            said: String::new(),
            lines: BTreeMap::new(),
            asked: BTreeMap::new(),
            fresh: 0,
            handed_in: 0,
            pokes: 0,
        }
    }

    fn memory(&mut self) -> *mut Memory {
        self.lent.lend().cast()
    }

    /// Hands in other contents, to both.
    fn hand_in(&mut self, words: &[u64], drivers: &[u8]) {
        let memory = unsafe { &mut *self.memory() };
        memory.words.copy_from_slice(words);
        memory.drivers.copy_from_slice(drivers);
        self.record = Record::read(words, drivers);
    }

    fn compare_memory(&mut self) -> Result<(), String> {
        let memory = unsafe { &*self.memory() };
        same("word", &memory.words, &self.record.words())?;
        // an emulator is slow at comparing bytes
        if eights(&memory.drivers).ne(eights(&self.record.drivers)) {
            same("driver", &memory.drivers, &self.record.drivers)?;
        }
        self.lent.compare_guards("record")
    }

    fn hash_memory(&mut self) {
        let memory = unsafe { &*self.memory() };
        memory.words.iter().for_each(|&word| self.hash.add(word));
        eights(&memory.drivers).for_each(|eight| self.hash.add(eight));
    }

    /// Bytes with text around them, so that a reader that goes too far reads something else.
    fn lend(&mut self, bytes: &[u8]) -> Lent<u8> {
        let random = &mut self.random;
        Lent::new(bytes, || *random.pick(b"0123456789abcdefx,+-\n"))
    }

    fn lend_junk(&mut self, length: usize) -> Lent<u8> {
        let random = &mut self.random;
        let junk: Vec<u8> = (0..length).map(|_| random.next() as u8).collect();
        Lent::new(&junk, || random.next() as u8)
    }

    /// A place for a number.
    fn lend_size(&mut self) -> Lent<usize> {
        let random = &mut self.random;
        Lent::new(&[random.next() as usize], || random.next() as usize)
    }

    /// Makes a call that is lent the record and bytes to read: an id, a text or a configuration.
    fn lending(&mut self, bytes: &[u8], call: impl FnOnce(*mut Memory, *const u8) -> c_int) -> Result<c_int, String> {
        let mut lent = self.lend(bytes);
        let got = call(self.memory(), lent.lend());
        lent.compare("byte to read", bytes, &mut self.hash)?;
        Ok(got)
    }

    /// The same of one that is lent an id and a text.
    fn lending_text(&mut self, id: &Id, text: &[u8], call: library::ByText) -> Result<c_int, String> {
        let mut lent = self.lend(text);
        let got = self.lending(id, |r, id| unsafe { call(r, id, lent.lend(), text.len()) })?;
        lent.compare("text byte", text, &mut self.hash)?;
        Ok(got)
    }

    /// Makes a call on both sides and compares. Answers what was answered.
    fn call(&mut self, call: &Call) -> Result<i64, String> {
        self.steps += 1;
        let result = self.try_call(call);
        result.map_err(|what| format!("{call}: {what}"))
    }

    fn try_call(&mut self, call: &Call) -> Result<i64, String> {
        let (got, expected): (i64, i64) = match call {
            Call::Fresh(a, d) => {
                let got = unsafe { library::header_fresh(self.memory(), *a, *d) };
                (got.into(), self.record.fresh(*a, *d).into())
            }
            Call::Create(id) => {
                let got = self.lending(id, |r, id| unsafe { library::header_create(r, id) })?;
                (got.into(), self.record.create(id).into())
            }
            Call::Remove(id) => {
                let got = self.lending(id, |r, id| unsafe { library::header_remove(r, id) })?;
                (got.into(), self.record.remove(id).into())
            }
            Call::Open(id) => {
                let got = self.lending(id, |r, id| unsafe { library::header_open(r, id) })?;
                (got.into(), self.record.open(id).into())
            }
            Call::Close(id) => {
                let got = self.lending(id, |r, id| unsafe { library::header_close(r, id) })?;
                (got.into(), self.record.close(id).into())
            }
            Call::Assign(id, kind, text) => {
                let got = self.lending_text(id, text, library::ASSIGN[*kind])?;
                (got.into(), self.record.assign(id, *kind, text).into())
            }
            Call::Unassign(id, kind, text) => {
                let got = self.lending_text(id, text, library::UNASSIGN[*kind])?;
                (got.into(), self.record.unassign(id, *kind, text).into())
            }
            Call::AssignNumber(id, kind, n) => {
                let got = self.lending(id, |r, id| unsafe { library::ASSIGN_NUMBER[*kind](r, id, *n) })?;
                (got.into(), self.record.assign_number(id, *kind, *n).into())
            }
            Call::UnassignNumber(id, kind, n) => {
                let got = self.lending(id, |r, id| unsafe { library::UNASSIGN_NUMBER[*kind](r, id, *n) })?;
                (got.into(), self.record.unassign_number(id, *kind, *n).into())
            }
            Call::Apmask(text) => {
                let got = self.lending(text, |r, t| unsafe { library::header_set_apmask(r, t, text.len()) })?;
                (got.into(), self.record.set_apmask(text).into())
            }
            Call::Aqmask(text) => {
                let got = self.lending(text, |r, t| unsafe { library::header_set_aqmask(r, t, text.len()) })?;
                (got.into(), self.record.set_aqmask(text).into())
            }
            Call::Configure(bytes) => {
                let got = self.lending(bytes, |r, b| unsafe { library::header_configure(r, b) })?;
                (got.into(), self.record.configure(bytes).into())
            }
            Call::Move(apid, apqi) => {
                let got = unsafe { library::header_move(self.memory(), *apid, *apqi) };
                (got.into(), self.record.move_queue(*apid as usize, *apqi as usize).into())
            }
            Call::Sweep(budget) => {
                let mut more = self.lend_junk(1);
                let got = unsafe { library::header_sweep(self.memory(), *budget, more.lend()) };
                let (used, any) = self.record.sweep(*budget);
                more.compare("more", &[any as u8], &mut self.hash)?;
                (got.into(), used.into())
            }
            Call::Line(line, size) => {
                let (mut out, mut written) = (self.lend_junk(*size), self.lend_size());
                let got = self.lending(line, |r, text| unsafe {
                    library::header_line(r, text, line.len(), out.lend(), *size, written.lend())
                })?;
                // without room for the longest answer the line is not carried out
                let carried = *size >= ANSWER_BYTES;
                self.said = if carried { self.record.console(line) } else { String::new() };
                let answer = if carried { format!("{}\n", self.said) } else { String::new() };
                out.compare("answer line: byte", answer.as_bytes(), &mut self.hash)?;
                written.compare("answer line: written", &[answer.len()][..carried as usize], &mut self.hash)?;
                (got.into(), if carried { 0 } else { 28 })
            }
        };
        self.hash.add(got as u64);
        self.hash_memory();
        equal("answer", got, expected)?;
        self.compare_memory()?;
        match call {
            Call::Move(..) => self.moves[got as usize] += 1,
            Call::Sweep(_) => {
                self.sweeps += 1;
                self.swept += got as u64;
            }
            Call::Line(..) => *self.lines.entry(form(&self.said)).or_default() += 1,
            _ if got == 0 => self.accepted += 1,
            _ => self.refused[got as usize] += 1,
        }
        if let Call::AssignNumber(..) | Call::UnassignNumber(..) = call {
            self.by_number[got as usize] += 1;
        }
        Ok(got)
    }

    /// Counts what a reader answered.
    fn count(&mut self, reader: &'static str, answer: c_int) {
        *self.asked.entry(reader).or_default().entry(answer).or_default() += 1;
    }

    /// Compares what a reader answered, and counts it.
    fn answered(&mut self, reader: &'static str, got: c_int, expected: c_int) -> Result<(), String> {
        self.hash.add(got as u64);
        self.count(reader, got);
        equal(reader, got, expected)
    }

    fn view_remaining(&mut self) -> Result<u32, String> {
        let got = unsafe { library::header_remaining(self.memory()) };
        self.hash.add(got.into());
        equal("remaining", got, self.record.remaining())?;
        self.count("remaining", 0);
        self.compare_memory()?;
        Ok(got)
    }

    fn view_limits(&mut self) -> Result<(), String> {
        let memory = self.memory();
        let got = unsafe { [library::header_highest_adapter(memory), library::header_highest_domain(memory)] };
        got.iter().for_each(|&limit| self.hash.add(limit as u64));
        equal("limits", got, [ADAPTER, DOMAIN].map(|kind| self.record.highest(kind) as c_int))?;
        self.count("highest_adapter", 0);
        self.count("highest_domain", 0);
        Ok(())
    }

    /// Asks for the host masks and the configuration.
    fn view_host(&mut self) -> Result<(), String> {
        type Write = unsafe extern "C" fn(*const Memory, *mut u8);
        let parts: [(&str, Write, Vec<u8>); 3] = [
            ("apmask", library::header_apmask, self.record.apmask.bytes().to_vec()),
            ("aqmask", library::header_aqmask, self.record.aqmask.bytes().to_vec()),
            ("configuration", library::header_configuration, self.record.configuration()),
        ];
        for (reader, write, bytes) in parts {
            let mut lent = self.lend_junk(bytes.len());
            unsafe { write(self.memory(), lent.lend()) };
            lent.compare(reader, &bytes, &mut self.hash)?;
            self.count(reader, 0);
        }
        self.compare_memory()
    }

    /// Asks for the device of every slot, and beyond the slots, also where sixteen words a slot come round to slot 0.
    fn view_slots(&mut self) -> Result<(), String> {
        for slot in (0..SLOTS).chain([SLOTS, SLOTS + 1, 256, 1 << 32, 1 << 60, usize::MAX]) {
            let (mut id, mut open) = (self.lend_junk(16), self.lend_junk(1));
            let got = unsafe { library::header_device(self.memory(), slot, id.lend(), open.lend()) };
            let (answer, written, flag) = match self.record.devices.get(slot) {
                Some(device) if device.present != 0 => (0, device.id.to_vec(), vec![(device.open != 0) as u8]),
                _ => (2, Vec::new(), Vec::new()),
            };
            let what = |e| format!("slot {slot}: {e}");
            self.answered("device", got, answer).map_err(what)?;
            id.compare("id byte", &written, &mut self.hash).map_err(what)?;
            open.compare("open", &flag, &mut self.hash).map_err(what)?;
        }
        self.compare_memory()
    }

    /// Asks for the names of a number. One that has none gets the empty string, of which only the zero is written.
    fn view_names(&mut self, value: c_int) -> Result<(), String> {
        type Name = unsafe extern "C" fn(c_int, *mut u8) -> *const u8;
        let tables: [(&str, Name, &[(u8, &str)]); 2] =
            [("errno_name", library::header_errno_name, &NAMES), ("moved_name", library::header_moved_name, &MOVED)];
        for (reader, name, table) in tables {
            let mut lent = self.lend_junk(NAME_BYTES);
            let place = lent.lend();
            let got = unsafe { name(value, place) };
            let named = table.iter().find(|(v, _)| c_int::from(*v) == value);
            let mut bytes = vec![0];
            if let Some((_, name)) = named {
                bytes = name.as_bytes().to_vec();
                bytes.resize(NAME_BYTES, 0);
            }
            equal(reader, got, place)?;
            lent.compare(&format!("{reader} of {value}: byte"), &bytes, &mut self.hash)?;
            self.count(reader, named.is_some().into());
        }
        Ok(())
    }

    /// Asks for everything of the record that takes no id and no queue.
    fn view_record(&mut self) -> Result<(), String> {
        self.view_remaining()?;
        self.view_limits()?;
        self.view_host()?;
        self.view_slots()?;
        let value = some_int(&mut self.random);
        self.view_names(value)
    }

    fn view_masks(&mut self, id: &Id, matrix: usize) -> Result<(), String> {
        let (reader, read) = library::MASKS[matrix];
        let mut masks = self.lend_junk(MASKS_BYTES);
        let got = self.lending(id, |r, id| unsafe { read(r, id, masks.lend()) })?;
        let (answer, bytes) = match self.record.find(id) {
            None => (2, Vec::new()),
            Some(p) => (0, self.record.matrix(p, matrix).iter().flat_map(|set| set.bytes()).collect()),
        };
        self.answered(reader, got, answer)?;
        masks.compare(reader, &bytes, &mut self.hash)?;
        self.compare_memory()
    }

    /// Answers the next place.
    fn view_list(&mut self, id: &Id, matrix: usize, place: usize, length: usize) -> Result<usize, String> {
        let (reader, read) = library::LIST[matrix];
        let mut buffer = self.lend_junk(length);
        let (mut written, mut next) = (self.lend_size(), self.lend_size());
        let got = self
            .lending(id, |r, id| unsafe { read(r, id, place, buffer.lend(), length, written.lend(), next.lend()) })?;
        let what = |e| format!("{reader}, place {place}, buffer {length}: {e}");
        let listing = self.record.list(id, matrix, place, length);
        self.answered(reader, got, listing.answer.into()).map_err(what)?;
        buffer.compare("byte", &listing.bytes, &mut self.hash).map_err(what)?;
        let sizes = (got == 0) as usize;
        written.compare("written", &[listing.bytes.len()][..sizes], &mut self.hash).map_err(what)?;
        next.compare("next", &[listing.next][..sizes], &mut self.hash).map_err(what)?;
        self.compare_memory()?;
        Ok(listing.next)
    }

    fn view_controls(&mut self, id: &Id) -> Result<(), String> {
        let (mut text, mut written) = (self.lend_junk(CONTROLS_BYTES), self.lend_size());
        let got =
            self.lending(id, |r, id| unsafe { library::header_control_domains(r, id, text.lend(), written.lend()) })?;
        let (answer, lines) = match self.record.find(id) {
            None => (2, String::new()),
            Some(p) => (0, self.record.controls(p)),
        };
        self.answered("control_domains", got, answer)?;
        text.compare("control domains: byte", lines.as_bytes(), &mut self.hash)?;
        written.compare("control domains: written", &[lines.len()][..(got == 0) as usize], &mut self.hash)?;
        self.compare_memory()
    }

    /// Asks for everything of one queue, and whether the guest of a device can use it.
    fn view_queue(&mut self, id: &Id, queue: usize) -> Result<(), String> {
        let (a, d) = (queue / 256, queue % 256);
        let (apid, apqi) = (a as u8, d as u8);
        let what = |e| format!("device {id:02x?}, queue {a}, {d}: {e}");
        let usable = self.lending(id, |r, id| unsafe { library::header_usable(r, id, apid, apqi) })?;
        self.answered("usable", usable, self.record.usable(id, a, d).into()).map_err(what)?;
        let driver = unsafe { library::header_driver(self.memory(), apid, apqi) };
        self.answered("driver", driver, self.record.driver(a, d) as c_int).map_err(what)?;
        let target = unsafe { library::header_target(self.memory(), apid, apqi) };
        self.answered("target", target, self.record.target(a, d) as c_int).map_err(what)?;
        let mut holder = self.lend_junk(16);
        let got = unsafe { library::header_holder(self.memory(), apid, apqi, holder.lend()) };
        let (answer, bytes) = match self.record.holder(a, d) {
            None => (2, Vec::new()),
            Some(id) => (0, id.to_vec()),
        };
        self.answered("holder", got, answer).map_err(what)?;
        holder.compare("holder: byte", &bytes, &mut self.hash).map_err(what)
    }

    fn list_randomly(&mut self, id: &Id, pool: &Pool, matrix: usize) -> Result<(), String> {
        let place = match self.random.below(8) {
            0..=2 => 0,
            3 => self.random.below(65_536) as usize,
            4 => pool.queue(&mut self.random),
            5 => pool.queue(&mut self.random) + 1,
            6 => *self.random.pick(&[65_534, 65_535, 65_536, 65_537, usize::MAX / 8, usize::MAX - 1, usize::MAX]),
            _ => self.random.below(256) as usize * 256,
        };
        let length = match self.random.below(64) {
            0..=4 => self.random.below(8) as usize,
            5..=39 => 8 + self.random.below(60) as usize,
            40..=62 => self.random.below(4_096) as usize,
            // enough for 65,536 lines, or nearly
            _ => 524_280 + self.random.below(20) as usize,
        };
        self.view_list(id, matrix, place, length)?;
        Ok(())
    }

    /// Asks for everything of one device: masks, listings, control domains, and a number of queues.
    fn view_device(&mut self, id: &Id, pool: &Pool, queues: usize) -> Result<(), String> {
        for matrix in [ASSIGNED, GUEST] {
            self.view_masks(id, matrix)?;
            self.list_randomly(id, pool, matrix)?;
        }
        self.view_controls(id)?;
        for _ in 0..queues {
            let queue = pool.queue(&mut self.random);
            self.view_queue(id, queue)?;
        }
        self.compare_memory()
    }

    /// A whole listing, from place to place with a small buffer.
    fn walk_listing(&mut self, id: &Id, matrix: usize) -> Result<(), String> {
        let mut place = 0;
        let length = 8 + self.random.below(8_192) as usize;
        while place < QUEUES {
            let next = self.view_list(id, matrix, place, length)?;
            if next <= place {
                break;
            }
            place = next;
        }
        Ok(())
    }
}

// ---------------------------------------------------------------------------------------------------------------------
// Random commands.
// ---------------------------------------------------------------------------------------------------------------------

/// xorshift64*.
struct Random(u64);

impl Random {
    fn new(seed: u64) -> Random {
        // the state must not be 0
        let mut random = Random((seed ^ 0x9e37_79b9_7f4a_7c15) | 1 << 63);
        for _ in 0..16 {
            random.next();
        }
        random
    }

    fn next(&mut self) -> u64 {
        self.0 ^= self.0 >> 12;
        self.0 ^= self.0 << 25;
        self.0 ^= self.0 >> 27;
        self.0.wrapping_mul(0x2545_f491_4f6c_dd1d)
    }

    fn below(&mut self, n: u64) -> u64 {
        (self.next() >> 16) % n
    }

    fn one_in(&mut self, n: u64) -> bool {
        self.below(n) == 0
    }

    fn pick<'a, T>(&mut self, of: &'a [T]) -> &'a T {
        &of[self.below(of.len() as u64) as usize]
    }
}

/// What the commands of one record are about, few enough that they meet.
struct Pool {
    ids: Vec<Id>,
    numbers: [Vec<u8>; 2],
    /// Of ten items of a mask text, those that set a bit.
    plus: u64,
}

impl Pool {
    fn new(random: &mut Random) -> Pool {
        let mut ids: Vec<Id> = Vec::new();
        for _ in 0..10 + random.below(3) {
            let mut id = [0; 16];
            // some differ in one byte only
            if random.one_in(2) {
                id[random.below(16) as usize] = random.next() as u8;
            } else {
                id.fill_with(|| random.next() as u8);
            }
            ids.push(id);
        }
        let mut some = || -> Vec<u8> {
            let size = *random.pick(&[1, 2, 3, 6, 10, 16, 24, 40, 80, 256]);
            if size == 256 {
                return (0..=255).collect();
            }
            (0..size)
                .map(|_| match random.below(3) {
                    0 => *random.pick(&[0, 1, 63, 64, 127, 128, 191, 192, 254, 255]),
                    _ => random.next() as u8,
                })
                .collect()
        };
        let numbers = [some(), some()];
        let plus = *random.pick(&[1, 3, 5, 7]);
        Pool { ids, numbers, plus }
    }

    /// An id, mostly one that a device has.
    fn id(&self, random: &mut Random, record: &Record) -> Id {
        let slot = random.below(SLOTS as u64) as usize;
        if record.devices[slot].present != 0 && !random.one_in(8) {
            return record.devices[slot].id;
        }
        *random.pick(&self.ids)
    }

    fn queue(&self, random: &mut Random) -> usize {
        if random.one_in(6) {
            return random.below(65_536) as usize;
        }
        *random.pick(&self.numbers[ADAPTER]) as usize * 256 + *random.pick(&self.numbers[DOMAIN]) as usize
    }

    /// A queue, often one that is due for a move.
    fn due_queue(&self, random: &mut Random, record: &Record) -> usize {
        for _ in 0..random.below(40) {
            let queue = self.queue(random);
            if record.driver(queue / 256, queue % 256) != record.target(queue / 256, queue % 256) {
                return queue;
            }
        }
        self.queue(random)
    }
}

/// A number in one of the forms.
fn spell(random: &mut Random, value: u64) -> String {
    match random.below(8) {
        0..=2 => format!("{value}"),
        3 | 4 => format!("0x{value:x}"),
        5 => {
            let upper = format!("{value:X}");
            let mixed: String =
                upper.chars().map(|c| if random.one_in(2) { c.to_ascii_lowercase() } else { c }).collect();
            format!("0x{mixed}")
        }
        6 => format!("0{value:o}"),
        _ => {
            // up to 16 bytes are good, and 17 are not
            let width = 1 + random.below(17) as usize;
            if random.one_in(2) {
                format!("0x{value:0width$x}", width = width.saturating_sub(2))
            } else {
                format!("0{value:0width$o}", width = width.saturating_sub(1))
            }
        }
    }
}

/// Damages a text; it may be good afterwards.
fn damage(random: &mut Random, text: &mut Vec<u8>) {
    let alphabet = b"0123456789abcdefABCDEFgGxX,+- \n\t\0\xff";
    let at = random.below(text.len() as u64 + 1) as usize;
    match random.below(12) {
        0 => text.clear(),
        1 => text.push(b'\n'),
        2 => text.extend(b"\n\n"),
        3 => text.insert(at, *random.pick(alphabet)),
        4 => text.insert(at, random.next() as u8),
        5 if at < text.len() => text[at] = *random.pick(alphabet),
        6 if at < text.len() => text[at] = random.next() as u8,
        7 if at < text.len() => {
            text.remove(at);
        }
        8 => text.truncate(at),
        9 => text.insert(0, *random.pick(b"+-0 \n")),
        10 => text.extend(b"0000000000000000"),
        _ => {
            *text = random
                .pick(&[
                    &b"0x"[..],
                    b"08",
                    b"0X5",
                    b"-1",
                    b"+",
                    b",",
                    b"0x\n",
                    b"\n",
                    b"+256",
                    b"0xg",
                    b"+5,",
                    b",+5",
                    b"+5,,+6",
                ])
                .to_vec()
        }
    }
}

/// A number to assign, mostly one of a pool.
fn some_number(random: &mut Random, numbers: &[u8], highest: u64) -> u64 {
    let n = *random.pick(numbers) as u64;
    match random.below(24) {
        0 => highest,
        1 => highest + 1,
        2 => random.below(301),
        3 => 256 + random.below(65_280),
        4 => *random.pick(&[255, 256, 257, 65_535, 131_072, 9_999_999_999_999_999, u64::MAX - n]),
        // these have the low bits of one of the pool
        5 => n + *random.pick(&[1 << 8, 1 << 16, 1 << 32, 1 << 63]),
        _ => n,
    }
}

fn number_text(random: &mut Random, value: u64) -> Vec<u8> {
    let mut text = spell(random, value).into_bytes();
    if random.one_in(3) {
        text.push(b'\n');
    }
    if random.one_in(14) {
        damage(random, &mut text);
    }
    text
}

fn mask_text(random: &mut Random, numbers: &[u8], plus: u64) -> Vec<u8> {
    let mut text = Vec::new();
    if random.one_in(4) {
        text.extend(b"0x");
        let digits = match random.below(6) {
            0 | 1 => 64,
            2 => 1 + random.below(4),
            3 => 62 + random.below(5),
            _ => 1 + random.below(64),
        };
        let style = random.below(5);
        for _ in 0..digits {
            let sparse = if random.one_in(12) { 1 << random.below(4) } else { 0 };
            let digit = match style {
                0 => 15,
                1 => 0,
                2 => random.below(16),
                3 => sparse,
                _ => 15 - sparse,
            };
            let hex = b"0123456789abcdef"[digit as usize];
            text.push(if random.one_in(4) { hex.to_ascii_uppercase() } else { hex });
        }
    } else {
        let items = match random.below(40) {
            0 => 100 + random.below(200),
            1..=20 => 1,
            _ => 1 + random.below(12),
        };
        for k in 0..items {
            if k > 0 {
                text.push(b',');
            }
            text.push(if random.below(10) < plus { b'+' } else { b'-' });
            let value = match random.below(200) {
                0 => 256,
                1..=20 => random.below(256),
                _ => *random.pick(numbers) as u64,
            };
            text.extend(spell_item(random, value));
        }
    }
    if random.one_in(3) {
        text.push(b'\n');
    }
    if random.one_in(14) {
        damage(random, &mut text);
    }
    text
}

/// A number that is no longer than 16 bytes, so that long lists are good now and then.
fn spell_item(random: &mut Random, value: u64) -> Vec<u8> {
    loop {
        let text = spell(random, value);
        if text.len() <= 16 {
            return text.into_bytes();
        }
    }
}

/// A mask for a record or a configuration.
fn some_set(random: &mut Random, numbers: &[u8]) -> Set {
    match random.below(8) {
        0 => Set::NONE,
        1 => Set::ALL,
        2 => Set::of_words(&[random.next(), random.next(), random.next(), random.next()]),
        3 => Set::of_words(&[random.next() & random.next() & random.next(), 0, random.next() & random.next(), 0]),
        4 => {
            let top = random.below(256) as usize;
            let mut set = Set::NONE;
            set.0[..=top].fill(true);
            set
        }
        _ => {
            let mut set = Set::NONE;
            for &n in numbers {
                set.0[n as usize] = !random.one_in(3);
            }
            set
        }
    }
}

fn configuration(random: &mut Random, pool: &Pool, record: &Record) -> Vec<u8> {
    let mut bytes = Vec::with_capacity(CONFIG_BYTES);
    let mut sets = [ADAPTER, DOMAIN, DOMAIN].map(|kind| some_set(random, &pool.numbers[kind]));
    // most are within the limits
    if !random.one_in(4) {
        for kind in 0..3 {
            let limit = record.highest(kind) as usize;
            sets[kind].0[limit + 1..].fill(false);
            if random.one_in(4) {
                sets[kind].0[limit] = true;
            }
        }
    } else if random.one_in(2) {
        // one bit above, in one mask
        let kind = random.below(3) as usize;
        for k in 0..3 {
            let limit = record.highest(k) as usize;
            sets[k].0[limit + 1..].fill(false);
        }
        let limit = record.highest(kind) as usize;
        if limit < 255 {
            sets[kind].0[limit + 1 + random.below(255 - limit as u64) as usize] = true;
        }
    }
    for set in &sets {
        bytes.extend(set.bytes());
    }
    let style = random.below(6);
    for _ in 0..256 {
        bytes.push(match style {
            0 => 10,
            1 => *random.pick(&[9, 10]),
            2 => random.next() as u8,
            3 => 255,
            _ => *random.pick(&[10, 11, 12, 13, 10, 11, 12, 9]),
        });
    }
    bytes
}

fn budget(random: &mut Random) -> u32 {
    match random.below(6) {
        0 => *random.pick(&[0, 1, 2, 65_535, 65_536, 131_071, 131_072, 131_073, 1 << 31, u32::MAX]),
        1 => random.below(10) as u32,
        2 | 3 => random.below(1_000) as u32,
        4 => random.below(131_072) as u32,
        _ => 131_072,
    }
}

fn limit(random: &mut Random) -> u64 {
    match random.below(4) {
        0 => random.below(256),
        1 => *random.pick(&[0, 1, 62, 63, 64, 65, 127, 128, 191, 192, 254]),
        _ => 255,
    }
}

fn odd_value(random: &mut Random) -> u64 {
    match random.below(3) {
        0 => random.next(),
        1 => 1 << random.below(64),
        _ => *random.pick(&[0, 1, 2, 255, 256, 257, 65_535, 65_536, 1 << 32, (1 << 32) + 5, 1 << 63, u64::MAX]),
    }
}

/// A number to name, often one that has a name, or the low bits of one.
fn some_int(random: &mut Random) -> c_int {
    let named = c_int::from(random.pick(&[&NAMES[..], &MOVED[..]].concat()).0);
    match random.below(4) {
        0 => random.next() as c_int,
        1 => named + *random.pick(&[1, -1, 1 << 8, 1 << 16, c_int::MIN]),
        2 => -named,
        _ => named,
    }
}

fn flag(random: &mut Random) -> u64 {
    match random.below(4) {
        0 => 0,
        1 => odd_value(random),
        _ => 1,
    }
}

/// A record with any contents, such as no command leaves.
fn any_record(random: &mut Random, pool: &Pool) -> (Vec<u64>, Vec<u8>) {
    let mut words = Vec::with_capacity(WORDS);
    for _ in 0..2 {
        words.push(if random.one_in(2) { odd_value(random) } else { limit(random) });
    }
    for kind in [ADAPTER, DOMAIN, ADAPTER, DOMAIN, DOMAIN] {
        words.extend(some_set(random, &pool.numbers[kind]).words());
    }
    let style = random.below(5);
    for _ in 0..256 {
        words.push(match style {
            0 => 10,
            1 => *random.pick(&[9, 10, 0]),
            2 => odd_value(random),
            3 => random.below(256),
            _ => 256 * random.below(3),
        });
    }
    let crowd = *random.pick(&[3, 6, 12]);
    for _ in 0..SLOTS {
        // of few ids some are equal
        let (hi, lo) = halves(&pool.ids[random.below(crowd.min(pool.ids.len() as u64)) as usize]);
        words.extend([flag(random), flag(random), hi, lo]);
        for kind in [ADAPTER, DOMAIN, DOMAIN] {
            words.extend(some_set(random, &pool.numbers[kind]).words());
        }
    }
    let style = random.below(6);
    let drivers = (0..QUEUES)
        .map(|_| match style {
            0 => 2,
            1 => random.below(3) as u8,
            2 => random.next() as u8,
            3 => *random.pick(&[0, 1, 2, 2, 2, 2, 3, 4, 128, 130, 255]),
            4 => 3 + random.below(253) as u8,
            _ => 2 * (!random.one_in(1_000)) as u8,
        })
        .collect();
    (words, drivers)
}

/// Hex digits of either case.
fn spell_hex(random: &mut Random, bytes: &[u8]) -> Vec<u8> {
    let mut digits = hex(bytes).into_bytes();
    if random.one_in(3) {
        digits.iter_mut().filter(|_| random.one_in(2)).for_each(|c| c.make_ascii_uppercase());
    }
    digits
}

/// A mask in hex form, often without the zeros on its right.
fn spell_mask(random: &mut Random, bytes: &[u8]) -> Vec<u8> {
    let mut digits = spell_hex(random, bytes);
    if random.one_in(2) {
        while digits.len() > 1 && digits.ends_with(b"0") && !random.one_in(40) {
            digits.pop();
        }
    }
    [b"0x".to_vec(), digits].concat()
}

/// A text as a word of a line, mostly without a newline at its end.
fn as_word(random: &mut Random, text: &[u8]) -> Vec<u8> {
    let keep = random.one_in(40);
    (if keep { text } else { without_newline(text) }).to_vec()
}

/// A number of a move, now and then one above 255.
fn move_number(random: &mut Random, n: u8) -> Vec<u8> {
    let value = match random.below(30) {
        0 => 256 + u64::from(n),
        1 => *random.pick(&[256, 257, 65_535, 65_536]),
        _ => n.into(),
    };
    let text = number_text(random, value);
    as_word(random, &text)
}

/// A call as a line of the console. One that the console has not is a line too, which is bad text.
fn spell_line(random: &mut Random, call: &Call) -> Vec<u8> {
    let word = |word: &str| word.as_bytes().to_vec();
    let words = match call {
        Call::Create(id) => vec![word("create"), spell_hex(random, id)],
        Call::Remove(id) => vec![word("remove"), spell_hex(random, id)],
        Call::Open(id) => vec![word("open"), spell_hex(random, id)],
        Call::Close(id) => vec![word("close"), spell_hex(random, id)],
        Call::Assign(id, kind, text) => {
            vec![word("assign"), spell_hex(random, id), word(KIND_WORDS[*kind]), as_word(random, text)]
        }
        Call::Unassign(id, kind, text) => {
            vec![word("unassign"), spell_hex(random, id), word(KIND_WORDS[*kind]), as_word(random, text)]
        }
        Call::AssignNumber(id, kind, n) => {
            vec![word("assign"), spell_hex(random, id), word(KIND_WORDS[*kind]), spell(random, *n).into_bytes()]
        }
        Call::UnassignNumber(id, kind, n) => {
            vec![word("unassign"), spell_hex(random, id), word(KIND_WORDS[*kind]), spell(random, *n).into_bytes()]
        }
        Call::Apmask(text) => vec![word("apmask"), as_word(random, text)],
        Call::Aqmask(text) => vec![word("aqmask"), as_word(random, text)],
        Call::Configure(bytes) => {
            let mut words = vec![word("config")];
            words.extend(bytes[..MASKS_BYTES].chunks(32).map(|mask| spell_mask(random, mask)));
            words.push(spell_hex(random, &bytes[MASKS_BYTES..]));
            words
        }
        Call::Move(apid, apqi) => vec![word("move"), move_number(random, *apid), move_number(random, *apqi)],
        Call::Sweep(_) => vec![word("sweep")],
        Call::Fresh(..) | Call::Line(..) => vec![word(&call.to_string())],
    };
    words.join(&b' ')
}

/// Damages a line: its words, the spaces between them, or any byte. It may be good afterwards.
fn damage_line(random: &mut Random, line: &mut Vec<u8>) {
    let mut words: Vec<Vec<u8>> = line.split(|&c| c == b' ').map(|word| word.to_vec()).collect();
    let (one, other) = (random.below(words.len() as u64) as usize, random.below(words.len() as u64) as usize);
    let at = random.below(line.len() as u64 + 1) as usize;
    let known = "create remove open close assign unassign adapter domain control apmask aqmask config move sweep ";
    let known: Vec<&str> = known.split(' ').collect();
    let known = random.pick(&known).as_bytes();
    match random.below(18) {
        0 => line.insert(at, b' '),
        1 => line.insert(0, b' '),
        2 => line.push(b' '),
        3 => line.insert(at, *random.pick(b"\n\r\t\0 \x0b\x7f\x80\xa0\xff")),
        4 => line.push(*random.pick(b"\n\r\t\0 ")),
        5 => line.insert(at, random.next() as u8),
        6 if at < line.len() => line[at] = random.next() as u8,
        7 if at < line.len() => {
            line.remove(at);
        }
        8 => line.truncate(at),
        9 => line.clear(),
        10 => line.extend(vec![*random.pick(b" x0\0"); random.below(1_200) as usize]),
        11 if at < line.len() => line[at] ^= 0x20,
        kind => {
            match kind {
                12 => drop(words.remove(one)),
                13 => words.insert(one, words[other].clone()),
                14 => words.swap(one, other),
                15 => words[one] = known.to_vec(),
                16 => damage(random, &mut words[one]),
                _ => words.push(known.to_vec()),
            }
            *line = words.join(&b' ');
        }
    }
}

/// A mask whose list fills a line of some length to the byte. It is good but for the length.
fn filled_line(random: &mut Random, pool: &Pool, length: usize) -> Vec<u8> {
    let kind = random.below(2) as usize;
    let mut line = [&b"apmask "[..], b"aqmask "][kind].to_vec();
    let mut item = |line: &mut Vec<u8>, digits: Option<usize>| {
        line.push(if random.below(10) < pool.plus { b'+' } else { b'-' });
        let value = u64::from(*random.pick(&pool.numbers[kind]));
        match digits {
            None => line.extend(spell_item(random, value)),
            // octal, with a zero in front, as there are at least 4 digits
            Some(digits) => line.extend(format!("{value:0digits$o}").bytes()),
        }
    };
    // what is left at the end is a comma, a sign and 4 to 16 digits
    while line.len() + 2 + 16 < length {
        let (before, first) = (line.len(), line.ends_with(b" "));
        if !first {
            line.push(b',');
        }
        item(&mut line, None);
        if line.len() + 2 + 4 > length {
            line.truncate(before);
        }
    }
    if !line.ends_with(b" ") {
        line.push(b',');
    }
    let digits = length - line.len() - 1;
    item(&mut line, Some(digits));
    line
}

/// A line of the console, mostly a good one.
fn some_line(random: &mut Random, record: &Record, pool: &Pool) -> Vec<u8> {
    match random.below(1_000) {
        0..=9 => {
            let near = 1_020 + random.below(9) as usize;
            let length = *random.pick(&[near, near, near, 1_023, 1_024, 1_025, 2_048, 5_000]);
            filled_line(random, pool, length)
        }
        10 if random.one_in(20) => {
            let length = 1_000_000 + random.below(100_000) as usize;
            vec![*random.pick(b" x,0\0\xff"); length]
        }
        11..=14 => (0..random.below(50)).map(|_| random.next() as u8).collect(),
        15..=17 => Vec::new(),
        _ => {
            let call = random_call(random, record, pool);
            let mut line = spell_line(random, &call);
            if random.one_in(10) {
                damage_line(random, &mut line);
            }
            line
        }
    }
}

/// The size of a buffer for an answer line.
fn answer_size(random: &mut Random) -> usize {
    let size = match random.below(10) {
        0 => random.below(44),
        1 => 20 + random.below(5),
        2 => random.below(5_000),
        _ => 22 + random.below(3),
    };
    size as usize
}

/// A command, a move or a sweep.
fn random_call(random: &mut Random, record: &Record, pool: &Pool) -> Call {
    let id = pool.id(random, record);
    // with few devices there is little to meet
    if record.devices.iter().filter(|v| v.present != 0).count() < 3 && random.one_in(3) {
        return Call::Create(*random.pick(&pool.ids));
    }
    match random.below(1_000) {
        0..=59 => Call::Create(*random.pick(&pool.ids)),
        60..=84 => Call::Remove(id),
        85..=139 => Call::Open(id),
        140..=184 => Call::Close(id),
        185..=724 => {
            let kind = *random.pick(&[ADAPTER, ADAPTER, DOMAIN, DOMAIN, CONTROL]);
            let highest = record.highest(kind);
            let host = if kind == ADAPTER { &record.apmask } else { &record.aqmask };
            let n = random.below(256) as u8;
            let value = match random.below(5) {
                // of the host's numbers, so that reserved queues are asked for
                0 if host.has(n as usize) => some_number(random, &[n], highest),
                _ => some_number(random, &pool.numbers[kind.min(DOMAIN)], highest),
            };
            // taken away less often than given, so that products grow
            match (random.one_in(3), random.one_in(4)) {
                (false, false) => Call::Assign(id, kind, number_text(random, value)),
                (false, true) => Call::Unassign(id, kind, number_text(random, value)),
                (true, false) => Call::AssignNumber(id, kind, value),
                (true, true) => Call::UnassignNumber(id, kind, value),
            }
        }
        725..=764 => Call::Apmask(mask_text(random, &pool.numbers[ADAPTER], pool.plus)),
        765..=804 => Call::Aqmask(mask_text(random, &pool.numbers[DOMAIN], pool.plus)),
        805..=824 => Call::Configure(configuration(random, pool, record)),
        825..=834 => Call::Sweep(budget(random)),
        835 => {
            let mut limits = [limit(random), limit(random)];
            if random.one_in(2) {
                limits[random.below(2) as usize] = odd_value(random);
            }
            Call::Fresh(limits[0], limits[1])
        }
        _ => {
            let queue = pool.due_queue(random, record);
            Call::Move((queue / 256) as u8, (queue % 256) as u8)
        }
    }
}

impl Run {
    /// Starts another record: a fresh one, or one with any contents.
    fn start(&mut self) -> Result<Pool, String> {
        // what was only read since the last call is about to be lost
        self.compare_memory()?;
        let mut pool = Pool::new(&mut self.random);
        if self.random.one_in(2) {
            let (words, drivers) = any_record(&mut self.random, &pool);
            self.hand_in(&words, &drivers);
            self.handed_in += 1;
        } else {
            let (adapter, domain) = (limit(&mut self.random), limit(&mut self.random));
            self.call(&Call::Fresh(adapter, domain))?;
            self.fresh += 1;
        }
        // mostly within the limits, as else nothing but ENODEV is met
        if !self.random.one_in(4) {
            for kind in [ADAPTER, DOMAIN] {
                let limit = self.record.highest(kind);
                pool.numbers[kind].iter_mut().for_each(|n| *n = (*n as u64 % (limit + 1)) as u8);
            }
        }
        Ok(pool)
    }

    /// Changes one word or one driver behind the back of both.
    fn poke(&mut self) -> Result<(), String> {
        self.compare_memory()?;
        self.pokes += 1;
        let (mut words, mut drivers) = (self.record.words(), self.record.drivers.clone());
        if self.random.one_in(2) {
            let at = self.random.below(WORDS as u64) as usize;
            words[at] = if self.random.one_in(2) {
                odd_value(&mut self.random)
            } else {
                words[at] ^ 1 << self.random.below(64)
            };
        } else {
            drivers[self.random.below(65_536) as usize] = self.random.next() as u8;
        }
        self.hand_in(&words, &drivers);
        Ok(())
    }

    fn random_step(&mut self, pool: &Pool) -> Result<(), String> {
        if self.random.one_in(400) {
            self.poke()?;
        }
        let random = &mut self.random;
        let call = if random.one_in(4) {
            Call::Line(some_line(random, &self.record, pool), answer_size(random))
        } else {
            random_call(random, &self.record, pool)
        };
        self.call(&call)?;
        Ok(())
    }

    /// Everything that can be asked, of every device, and of an id that may be none.
    fn view_all(&mut self, pool: &Pool) -> Result<(), String> {
        self.view_record()?;
        let mut ids: Vec<Id> = self.record.devices.iter().filter(|v| v.present != 0).map(|v| v.id).collect();
        ids.push(*self.random.pick(&pool.ids));
        for id in ids {
            self.view_device(&id, pool, 24)?;
        }
        Ok(())
    }

    fn full_phase(&mut self, clock: &mut Clock) -> Result<u64, String> {
        self.phase = "full";
        let begin = self.steps;
        while self.steps - begin < FULL_STEPS && !clock.over(self) {
            let pool = self.start()?;
            for _ in 0..60 + self.random.below(80) {
                if self.steps - begin >= FULL_STEPS || clock.over(self) {
                    break;
                }
                self.random_step(&pool)?;
                self.view_all(&pool)?;
            }
            // listings of one device from end to end, and in a few records all its queues, as each can cost 65,536 turns
            let id = pool.id(&mut self.random, &self.record);
            for matrix in [ASSIGNED, GUEST] {
                self.walk_listing(&id, matrix)?;
            }
            if self.fresh + self.handed_in <= 4 {
                for queue in 0..QUEUES {
                    self.view_queue(&id, queue)?;
                }
            }
        }
        Ok(self.steps - begin)
    }

    fn long_phase(&mut self, clock: &mut Clock) -> Result<u64, String> {
        self.phase = "long";
        let begin = self.steps;
        while !clock.over(self) {
            let pool = self.start()?;
            for _ in 0..200 + self.random.below(3_000) {
                if clock.over(self) {
                    break;
                }
                self.random_step(&pool)?;
                let (id, queue) = (pool.id(&mut self.random, &self.record), pool.queue(&mut self.random));
                self.view_queue(&id, queue)?;
                if self.steps % SAMPLE == 0 {
                    self.view_record()?;
                    self.view_device(&id, &pool, 8)?;
                }
            }
        }
        Ok(self.steps - begin)
    }

    /// Each limit of either kind, what is at it, below it and above it; and the largest budget of a sweep.
    fn limits_phase(&mut self) -> Result<u64, String> {
        self.phase = "limits";
        let begin = self.steps;
        let id = [7; 16];
        for above in [256, 257, 511, 65_536, 1 << 32, 1 << 63, u64::MAX] {
            self.call(&Call::Fresh(255, 255))?;
            self.call(&Call::Create(id))?;
            for (adapter, domain) in [(above, 255), (255, above), (above, above), (0, above)] {
                let answer = self.call(&Call::Fresh(adapter, domain))?;
                equal("a limit above 255", answer, 22)?;
            }
        }
        // every pair of limits, each over what the one before left, and at times over any contents
        for adapter in 0..256 {
            let pool = Pool::new(&mut self.random);
            let (words, drivers) = any_record(&mut self.random, &pool);
            self.hand_in(&words, &drivers);
            for domain in 0..256 {
                let answer = self.call(&Call::Fresh(adapter, domain))?;
                equal("a pair of limits", answer, 0)?;
                self.view_limits()?;
            }
            for refused in [Call::Fresh(adapter, 256), Call::Fresh(256, adapter)] {
                let answer = self.call(&refused)?;
                equal("a limit above 255", answer, 22)?;
            }
        }
        for adapter in 0..256 {
            for domain in [adapter, 255 - adapter, self.random.below(256), self.random.below(256)] {
                let highest = [adapter, domain, domain];
                self.call(&Call::Fresh(adapter, domain))?;
                self.call(&Call::Create(id))?;
                for (kind, &limit) in highest.iter().enumerate() {
                    for n in [limit, limit + 1, limit.saturating_sub(1), 255, 256] {
                        let text = spell(&mut self.random, n).into_bytes();
                        let by_number = if n > limit { 19 } else { 0 };
                        let by_text = if text.len() > 16 { 22 } else { by_number };
                        let words = [&hex(&id), KIND_WORDS[kind], std::str::from_utf8(&text).unwrap()].join(" ");
                        let said = match by_text {
                            0 => "ok",
                            19 => "refused ENODEV",
                            _ => "refused EINVAL",
                        };
                        for word in ["assign", "unassign"] {
                            self.says(&format!("{word} {words}"), said)?;
                        }
                        for (call, expected) in [
                            (Call::Assign(id, kind, text.clone()), by_text),
                            (Call::Unassign(id, kind, text), by_text),
                            (Call::AssignNumber(id, kind, n), by_number),
                            (Call::UnassignNumber(id, kind, n), by_number),
                        ] {
                            let answer = self.call(&call)?;
                            equal("a number at a limit", answer, expected)?;
                        }
                    }
                    for n in [limit, limit + 1] {
                        let mut bytes = vec![0; CONFIG_BYTES];
                        if n <= 255 {
                            bytes[kind * 32 + n as usize / 8] = 128 >> (n % 8);
                            let line = spell_line(&mut self.random, &Call::Configure(bytes.clone()));
                            let answer = self.call(&Call::Configure(bytes))?;
                            equal("a bit at a limit", answer, if n > limit { 19 } else { 0 })?;
                            let said = if n > limit { "refused ENODEV" } else { "ok" };
                            self.says(&String::from_utf8(line).unwrap(), said)?;
                        }
                    }
                }
            }
        }
        for budget in [0, 1, 131_070, 131_071, 131_072, 131_073, 1 << 31, u32::MAX] {
            // every queue goes from host to passthrough
            let all = [[255; 96].as_slice(), &[10; 256]].concat();
            for call in
                [Call::Fresh(255, 255), Call::Configure(all), Call::Sweep(u32::MAX), Call::Apmask(b"0x0".to_vec())]
            {
                self.call(&call)?;
            }
            equal("remaining", self.view_remaining()?, 131_072)?;
            let used = self.call(&Call::Sweep(budget))?;
            equal("moves used", used, budget.min(131_072).into())?;
            // the console's budget is the largest: two moves a queue, less those made
            self.says("sweep", &format!("ok {}", 131_072 - used))?;
        }
        Ok(self.steps - begin)
    }

    /// A line of the console whose answer is known.
    fn says(&mut self, line: &str, answer: &str) -> Result<(), String> {
        self.call(&Call::Line(line.into(), ANSWER_BYTES))?;
        equal(&format!("line \"{}\"", line.escape_debug()), &self.said[..], answer)
    }

    /// The settings that the requirements work out, with the outcomes that they give. They hold the second implementation
    /// to the paper too.
    fn settings_phase(&mut self) -> Result<u64, String> {
        self.phase = "settings";
        let begin = self.steps;
        let one = [1; 16];
        let two = [2; 16];
        let text = |t: &str| t.as_bytes().to_vec();
        let set = |numbers: &[usize]| {
            let mut set = Set::NONE;
            numbers.iter().for_each(|&n| set.0[n] = true);
            set.words()
        };
        macro_rules! gives {
            ($answer:expr, $call:expr) => {{
                let call = $call;
                let got = self.call(&call)?;
                equal(&format!("setting: {call}"), got, $answer)?;
            }};
        }
        macro_rules! mask_is {
            ($mask:expr, $numbers:expr) => {
                equal("setting: mask", $mask.words(), set(&$numbers))?
            };
        }

        // 1 to 3, 15
        gives!(0, Call::Fresh(255, 255));
        gives!(0, Call::Apmask(text("0x41")));
        mask_is!(self.record.apmask, [1, 7]);
        gives!(0, Call::Apmask(text("0x7d")));
        mask_is!(self.record.apmask, [1, 2, 3, 4, 5, 7]);
        gives!(0, Call::Apmask(text(&format!("0x{}", "a".repeat(64)))));
        gives!(22, Call::Apmask(text(&format!("0x{}", "a".repeat(65)))));
        gives!(0, Call::Apmask(text("0x0\n")));
        gives!(0, Call::Apmask(text("+0,-6,+0x47,-0xf0")));
        mask_is!(self.record.apmask, [0, 71]);
        gives!(0, Call::Apmask(text("+255")));
        gives!(22, Call::Apmask(text("+256")));
        gives!(22, Call::Apmask(text("")));
        gives!(0, Call::Apmask(text("0x0")));
        gives!(0, Call::Apmask(text("+0107")));
        mask_is!(self.record.apmask, [71]);

        // 4
        gives!(0, Call::Apmask(text("0xffff")));
        gives!(0, Call::Aqmask(text("0x40")));
        for (apid, apqi, reserved) in [(15, 1, true), (16, 1, false), (15, 0, false)] {
            equal("setting: reserved", self.record.reserved(apid, apqi), reserved)?;
        }
        gives!(0, Call::Create(one));
        gives!(0, Call::Create(two));
        gives!(0, Call::Assign(one, 0, text("15")));
        gives!(99, Call::Assign(one, 1, text("1")));
        gives!(0, Call::Assign(one, 1, text("0")));
        gives!(0, Call::Assign(two, 0, text("16")));
        gives!(0, Call::Assign(two, 1, text("1")));
        let mut bytes = vec![0; CONFIG_BYTES];
        bytes[1] = 0x01;
        bytes[2] = 0x80;
        bytes[32] = 0xc0;
        bytes[96..].fill(10);
        gives!(0, Call::Configure(bytes));
        for (apid, apqi, bound) in [(15, 1, 2), (16, 1, 3), (15, 0, 3)] {
            gives!(bound, Call::Move(apid, apqi));
        }
        gives!(0, Call::Remove(one));
        gives!(0, Call::Remove(two));

        // 5 and 6
        gives!(0, Call::Apmask(text("0x0")));
        gives!(0, Call::Aqmask(text("0x0")));
        gives!(0, Call::Create(one));
        gives!(0, Call::Create(two));
        for (id, kind, n) in
            [(one, 0, "1"), (one, 0, "2"), (one, 1, "5"), (one, 1, "6"), (two, 0, "1"), (two, 0, "2"), (two, 1, "7")]
        {
            gives!(0, Call::Assign(id, kind, text(n)));
        }
        gives!(98, Call::Assign(two, 1, text("6")));

        // 7 and 8
        gives!(0, Call::Fresh(255, 255));
        gives!(0, Call::Create(one));
        gives!(0, Call::Assign(one, 0, text("5")));
        gives!(99, Call::Assign(one, 1, text("4")));
        gives!(0, Call::Fresh(63, 255));
        gives!(0, Call::Create(one));
        gives!(0, Call::Assign(one, 0, text("63")));
        gives!(19, Call::Assign(one, 0, text("64")));

        // 9, 10 and the listing
        let with_domains = |domains: &[usize]| {
            let mut bytes = vec![0; CONFIG_BYTES];
            bytes[0] = 0x06;
            for &d in domains {
                bytes[32 + d / 8] |= 128 >> (d % 8);
            }
            bytes[96..].fill(10);
            bytes
        };
        gives!(0, Call::Fresh(255, 255));
        gives!(0, Call::Apmask(text("-5,-6")));
        gives!(0, Call::Configure(with_domains(&[4, 171])));
        gives!(0, Call::Create(one));
        for (kind, n) in [(0, "5"), (0, "6"), (1, "4"), (1, "0xab")] {
            gives!(0, Call::Assign(one, kind, text(n)));
        }
        gives!(3, Call::Sweep(3));
        let guest = self.record.guest(0);
        mask_is!(guest[ADAPTER], [5]);
        mask_is!(guest[DOMAIN], [4, 171]);
        self.view_masks(&one, GUEST)?;
        gives!(0, Call::Configure(with_domains(&[4])));
        let guest = self.record.guest(0);
        mask_is!(guest[ADAPTER], [5, 6]);
        mask_is!(guest[DOMAIN], [4]);
        self.view_masks(&one, GUEST)?;
        let all = b"05.0004\n05.00ab\n06.0004\n06.00ab\n";
        for (length, bytes, next, answer) in [(20, 16, 1_452, 0), (32, 32, 65_536, 0), (7, 0, 0, 28)] {
            let listing = self.record.list(&one, ASSIGNED, 0, length);
            equal("setting: listing", listing.answer, answer)?;
            equal("setting: listing", &listing.bytes[..], &all[..bytes])?;
            equal("setting: next place", listing.next, next)?;
            self.view_list(&one, ASSIGNED, 0, length)?;
        }

        // 11
        gives!(0, Call::Fresh(255, 255));
        gives!(0, Call::Apmask(text("-5")));
        gives!(0, Call::Aqmask(text("-4")));
        gives!(0, Call::Create(one));
        gives!(0, Call::Assign(one, 0, text("5")));
        gives!(0, Call::Assign(one, 1, text("4")));
        gives!(0, Call::Apmask(text("+5")));
        gives!(0, Call::Apmask(text("-5")));
        gives!(0, Call::Aqmask(text("+4")));
        gives!(98, Call::Apmask(text("+5")));

        // 12: with adapter 5, domain 4 is assigned elsewhere and domain 6 is reserved
        gives!(0, Call::Fresh(255, 255));
        gives!(0, Call::Apmask(text("0x04")));
        gives!(0, Call::Aqmask(text("0x02")));
        gives!(0, Call::Create(one));
        gives!(0, Call::Create(two));
        for (id, kind, n) in [(one, 0, "5"), (one, 1, "4"), (two, 1, "4"), (two, 1, "6")] {
            gives!(0, Call::Assign(id, kind, text(n)));
        }
        gives!(99, Call::Assign(two, 0, text("5")));
        gives!(0, Call::Unassign(two, 1, text("6")));
        gives!(98, Call::Assign(two, 0, text("5")));

        // 13
        gives!(0, Call::Fresh(255, 255));
        let mut bytes = vec![0; CONFIG_BYTES];
        bytes[0] = 0x04;
        bytes[32] = 0x08;
        bytes[96 + 5] = 10;
        gives!(0, Call::Configure(bytes));
        gives!(2, Call::Move(5, 4));
        gives!(0, Call::Apmask(text("-5")));
        gives!(0, Call::Sweep(0));
        equal("setting: remaining", self.view_remaining()?, 2)?;
        gives!(1, Call::Move(5, 4));
        equal("setting: remaining", self.view_remaining()?, 1)?;
        gives!(3, Call::Move(5, 4));
        equal("setting: remaining", self.view_remaining()?, 0)?;
        gives!(0, Call::Move(5, 4));

        // 14
        gives!(0, Call::Fresh(255, 255));
        for n in 0..8 {
            gives!(0, Call::Create([n; 16]));
        }
        gives!(28, Call::Create([8; 16]));
        gives!(0, Call::Remove([3; 16]));
        gives!(0, Call::Create([8; 16]));

        // 8 and 12 by number, and what is there to look at
        gives!(0, Call::Fresh(63, 255));
        gives!(0, Call::Create(one));
        gives!(2, Call::AssignNumber(two, ADAPTER, 64));
        gives!(0, Call::AssignNumber(one, ADAPTER, 63));
        gives!(19, Call::AssignNumber(one, ADAPTER, 64));
        gives!(19, Call::AssignNumber(one, ADAPTER, (1 << 32) + 5));
        gives!(0, Call::Fresh(255, 255));
        gives!(0, Call::Apmask(text("0x04")));
        gives!(0, Call::Aqmask(text("0x02")));
        gives!(0, Call::Create(one));
        gives!(0, Call::Create(two));
        for (id, kind, n) in [(one, ADAPTER, 5), (one, DOMAIN, 4), (two, DOMAIN, 4), (two, DOMAIN, 6)] {
            gives!(0, Call::AssignNumber(id, kind, n));
        }
        gives!(99, Call::AssignNumber(two, ADAPTER, 5));
        gives!(0, Call::UnassignNumber(two, DOMAIN, 6));
        gives!(98, Call::AssignNumber(two, ADAPTER, 5));
        for n in [255, 0, 171] {
            gives!(0, Call::AssignNumber(two, CONTROL, n));
        }
        gives!(0, Call::Open(two));
        let mut bytes = vec![0; CONFIG_BYTES];
        bytes[0] = 0x06;
        bytes[32] = 0x0a;
        bytes[96 + 5] = 10;
        bytes[96 + 6] = 9;
        gives!(0, Call::Configure(bytes.clone()));
        gives!(2, Call::Sweep(4));
        equal("setting: configuration", self.record.configuration(), bytes)?;
        equal("setting: control domains", self.record.controls(1), "0000\n00ab\n00ff\n".into())?;
        equal("setting: holder", self.record.holder(5, 4), Some(one))?;
        equal("setting: holder", self.record.holder(5, 6), None)?;
        // (5,4) is passed through, (5,6) the host's, and (6,4) of a type below 10
        for (queue, driver) in [((5, 4), Driver::Passthrough), ((5, 6), Driver::Host), ((6, 4), Driver::Unbound)] {
            equal("setting: driver", self.record.driver(queue.0, queue.1), driver)?;
            equal("setting: target", self.record.target(queue.0, queue.1), driver)?;
            self.view_queue(&one, queue.0 * 256 + queue.1)?;
        }
        self.view_controls(&two)?;
        self.view_record()?;

        // domain 4 a + c is assigned by a and configured by c: 0 not at all, 1 as control domain, 2 as usage domain, 3 as both;
        // then all of it once more at a mask's end, from domain 240 on
        gives!(0, Call::Fresh(255, 255));
        gives!(0, Call::Create(one));
        let mut bytes = vec![0; CONFIG_BYTES];
        for at in [32, 62] {
            bytes[at..at + 2].copy_from_slice(&[0x33, 0x33]);
            bytes[at + 32..at + 34].copy_from_slice(&[0x55, 0x55]);
        }
        gives!(0, Call::Configure(bytes));
        for n in (0..16).chain(240..256) {
            if n / 4 % 2 == 1 {
                gives!(0, Call::AssignNumber(one, CONTROL, n));
            }
            if n / 8 % 2 == 1 {
                gives!(0, Call::AssignNumber(one, DOMAIN, n));
            }
        }
        let mut controls = vec![0; 32];
        for at in [0, 30] {
            controls[at..at + 2].copy_from_slice(&[0x07, 0x77]);
        }
        equal("setting: guest control domains", self.record.guest(0)[CONTROL].bytes().to_vec(), controls)?;
        self.view_masks(&one, ASSIGNED)?;
        self.view_masks(&one, GUEST)?;

        for value in (-600..=600).chain([65_538, 65_634, 1 << 24, c_int::MIN, c_int::MIN + 2, c_int::MAX]) {
            self.view_names(value)?;
        }
        self.console_settings()?;
        Ok(self.steps - begin)
    }

    /// Lines of the console, and their answers by the requirements.
    fn console_settings(&mut self) -> Result<(), String> {
        let id = "0".repeat(32);
        let types = "0a".repeat(256);
        self.call(&Call::Fresh(255, 255))?;
        self.says(&format!("create {id}"), "ok")?;
        self.says(&format!("assign {id} adapter 5"), "ok")?;
        self.says(&format!("assign {id} domain 4"), "refused EADDRNOTAVAIL")?;
        for (line, answer) in [
            ("apmask -5", "ok"),
            ("apmask -5\n", "refused EINVAL"),
            ("apmask  -5", "refused EINVAL"),
            (" apmask -5", "refused EINVAL"),
            ("apmask -5 ", "refused EINVAL"),
            ("", "refused EINVAL"),
            ("\n", "refused EINVAL"),
            ("sweep", "ok 0"),
            ("sweep\n", "refused EINVAL"),
            ("sweep 1", "refused EINVAL"),
            ("sweep\nsweep", "refused EINVAL"),
            ("Sweep", "refused EINVAL"),
            ("move 5 4", "ok idle"),
            ("move 5 4\n", "refused EINVAL"),
            ("move 5 256", "refused EINVAL"),
            ("config 0x04 0x08 0x0 TYPES", "ok"),
            ("config 0x04 0x08 0x0 TYPES\n", "refused EINVAL"),
            ("config +5 0x08 0x0 TYPES", "refused EINVAL"),
            ("config 0x04 0x08 0x0 TYPES0", "refused EINVAL"),
            ("move 5 4", "ok passthrough"),
            ("apmask +5", "ok"),
            ("move 0x5 04", "ok released"),
            ("move 5 4", "ok host"),
            ("apmask -5", "ok"),
            ("sweep", "ok 2"),
            ("assign ID domain 4", "ok"),
            ("apmask +5", "refused EADDRINUSE"),
            ("unassign ID domain 256", "refused ENODEV"),
            ("create ID", "refused EEXIST"),
            ("open ID", "ok"),
            ("open ID", "refused EBUSY"),
            ("close ID", "ok"),
            ("close ID", "refused EINVAL"),
            ("remove ID", "ok"),
            ("remove ID", "refused ENOENT"),
        ] {
            self.says(&line.replace("ID", &id).replace("TYPES", &types), answer)?;
        }
        for n in 1..=9 {
            self.says(&format!("create {n:032}"), if n <= 8 { "ok" } else { "refused ENOSPC" })?;
        }
        // lines of 1,020 to 1,027 bytes
        for digits in 1..=5 {
            let line = format!("aqmask {}+{:0digits$}", "-1,".repeat(337), 7);
            let long = format!("aqmask {}+{:0digits$}", "-1,".repeat(338), 7);
            self.says(&line, "ok")?;
            self.says(&long, if long.len() <= 1_024 { "ok" } else { "refused EINVAL" })?;
        }
        // every size of the buffer for the answer: below 22 nothing is done
        for size in 0..=64 {
            self.call(&Call::Fresh(255, 255))?;
            for line in [format!("create {id}"), "sweep".into(), "create".into()] {
                let answer = self.call(&Call::Line(line.into_bytes(), size))?;
                equal("setting: a buffer for an answer", answer, if size < 22 { 28 } else { 0 })?;
            }
            let answer = self.call(&Call::Create([0; 16]))?;
            equal("setting: a line that is not carried out", answer, if size < 22 { 0 } else { 17 })?;
        }
        Ok(())
    }
}

// ---------------------------------------------------------------------------------------------------------------------
// The program that reads lines of the console.
// ---------------------------------------------------------------------------------------------------------------------

/// How long the program may take until it prints or ends.
const PATIENCE: Duration = Duration::from_secs(60);
/// Short inputs, and lines of the dialogue.
const SHORT_INPUTS: usize = 60;
const DIALOGUE: usize = 400;

/// The program while it runs. Its output is read by a thread, so that no pipe fills.
struct Program {
    child: Child,
    input: Option<ChildStdin>,
    output: Receiver<Vec<u8>>,
    /// What was printed and not looked at yet.
    got: Vec<u8>,
}

impl Program {
    fn start(path: &str) -> Result<Program, String> {
        let started = Command::new(path).stdin(Stdio::piped()).stdout(Stdio::piped()).spawn();
        let mut child = started.map_err(|e| format!("{path}: {e}"))?;
        let (input, mut from) = (child.stdin.take(), child.stdout.take().unwrap());
        let (send, output) = channel();
        thread::spawn(move || {
            let mut buffer = vec![0; 65_536];
            while let Ok(n @ 1..) = from.read(&mut buffer) {
                if send.send(buffer[..n].to_vec()).is_err() {
                    break;
                }
            }
        });
        Ok(Program { child, input, output, got: Vec::new() })
    }

    /// Waits for more output; whether there was any before its end.
    fn more(&mut self) -> Result<bool, String> {
        match self.output.recv_timeout(PATIENCE) {
            Ok(bytes) => {
                self.got.extend(bytes);
                Ok(true)
            }
            Err(RecvTimeoutError::Disconnected) => Ok(false),
            Err(RecvTimeoutError::Timeout) => Err(format!("nothing printed for {} s", PATIENCE.as_secs())),
        }
    }

    /// Writes a part of the input, at once.
    fn write(&mut self, part: &[u8]) -> Result<(), String> {
        write_part(self.input.as_mut().unwrap(), part)
    }

    /// Waits for an answer line, and takes it without its newline.
    fn answer(&mut self) -> Result<String, String> {
        loop {
            if let Some(end) = self.got.iter().position(|&c| c == b'\n') {
                let line: Vec<u8> = self.got.drain(..=end).collect();
                return Ok(line[..end].escape_ascii().to_string());
            }
            if !self.more()? {
                return Err(format!("the output ended after \"{}\"", self.got.escape_ascii()));
            }
        }
    }

    /// Reads the output to its end, and waits for the program to end well.
    fn end(mut self) -> Result<Vec<u8>, String> {
        while self.more()? {}
        let begin = Instant::now();
        while begin.elapsed() < PATIENCE {
            match self.child.try_wait().map_err(|e| e.to_string())? {
                Some(status) if status.success() => return Ok(std::mem::take(&mut self.got)),
                Some(status) => return Err(format!("the program ended with {status}")),
                None => thread::sleep(Duration::from_millis(1)),
            }
        }
        Err("the output ended, and the program did not".into())
    }
}

impl Drop for Program {
    /// Nothing is left running where something differed.
    fn drop(&mut self) {
        let _ = self.child.kill();
        let _ = self.child.wait();
    }
}

fn write_part(input: &mut ChildStdin, part: &[u8]) -> Result<(), String> {
    input.write_all(part).and_then(|()| input.flush()).map_err(|e| format!("the input was not taken: {e}"))
}

/// The start of a line, for a report.
fn shown(line: &[u8]) -> String {
    let dots = if line.len() > 200 { "..." } else { "" };
    format!("\"{}{dots}\" of {} bytes", line[..line.len().min(200)].escape_ascii(), line.len())
}

/// The lengths of the parts in which an input is written: from a byte to many lines, and often up to a line's end, or just
/// not to it. After some there is a pause, so that the program sees the part alone.
fn parts(random: &mut Random, input: &[u8]) -> Vec<(usize, bool)> {
    let (mut parts, mut at, mut most, mut change) = (Vec::new(), 0, 1, 0);
    while at < input.len() {
        if at >= change {
            most = *random.pick(&[1, 2, 7, 60, 1_000, 1_024, 5_000, 100_000]);
            change = at + 1 + random.below(if most <= 7 { 4_000 } else { 40_000 }) as usize;
        }
        let line = input[at..].iter().position(|&c| c == b'\n').unwrap_or(0);
        let part = match random.below(8) {
            0 if most > 1 => line + 1,
            1 if most > 1 => line,
            _ => 1 + random.below(most) as usize,
        };
        let part = part.clamp(1, input.len() - at);
        parts.push((part, random.one_in(8)));
        at += part;
    }
    parts
}

/// Random lines, and the second implementation, which follows them.
struct Console {
    random: Random,
    record: Record,
    pool: Pool,
    /// Lines until another pool.
    left: u64,
    met: BTreeMap<String, u64>,
}

impl Console {
    fn new(seed: u64) -> Console {
        let mut random = Random::new(seed);
        let pool = Pool::new(&mut random);
        let mut record = Record::new();
        record.fresh(255, 255);
        Console { random, record, pool, left: 0, met: BTreeMap::new() }
    }

    /// A line. It may hold newlines, and is several then.
    fn line(&mut self) -> Vec<u8> {
        if self.left == 0 {
            self.left = 100 + self.random.below(1_000);
            self.pool = Pool::new(&mut self.random);
            // room for other devices
            let ids: Vec<Id> = self.record.devices.iter().filter(|v| v.present != 0).map(|v| v.id).collect();
            let calls = ids.iter().flat_map(|&id| [Call::Close(id), Call::Remove(id)]);
            let lines: Vec<Vec<u8>> = calls.map(|call| spell_line(&mut self.random, &call)).collect();
            if !lines.is_empty() {
                return lines.join(&b'\n');
            }
        }
        self.left -= 1;
        some_line(&mut self.random, &self.record, &self.pool)
    }

    /// The answers to more of the input, which begins with a line.
    fn follow(&mut self, input: &[u8]) -> Vec<String> {
        let answers = self.record.console_input(input);
        for answer in &answers {
            *self.met.entry(form(answer)).or_default() += 1;
        }
        answers
    }

    /// An input of at least as many lines, and the answers to it. It may end with a line that has no newline.
    fn input(&mut self, lines: usize) -> (Vec<u8>, Vec<String>) {
        let (mut input, mut answers) = (Vec::new(), Vec::new());
        while answers.len() < lines {
            let mut line = self.line();
            line.push(b'\n');
            answers.extend(self.follow(&line));
            input.extend(line);
        }
        if self.random.one_in(2) {
            let line = match self.random.below(4) {
                0 => {
                    let length = *self.random.pick(&[1_023, 1_024, 1_025, 5_000]);
                    filled_line(&mut self.random, &self.pool, length)
                }
                1 => self.random.pick(&[&b" "[..], b"sweep", b"x", b"\r", b"\0"]).to_vec(),
                _ => self.line(),
            };
            answers.extend(self.follow(&line));
            input.extend(line);
        }
        (input, answers)
    }

    /// Gives the program an input in parts, and compares the whole output. Answers the number of parts.
    fn feed(&mut self, path: &str, input: Vec<u8>, answers: &[String]) -> Result<usize, String> {
        let parts = parts(&mut self.random, &input);
        let count = parts.len();
        let mut program = Program::start(path)?;
        let (mut to, whole) = (program.input.take().unwrap(), input.clone());
        let writer = thread::spawn(move || -> Result<(), String> {
            let mut at = 0;
            for (part, pause) in parts {
                write_part(&mut to, &whole[at..at + part])?;
                at += part;
                if pause {
                    thread::sleep(Duration::from_micros(20));
                }
            }
            Ok(())
        });
        let got = program.end()?;
        let mut lines = input.split(|&c| c == b'\n');
        let mut said = got.split(|&c| c == b'\n');
        for (n, answer) in answers.iter().enumerate() {
            let (line, got) = (lines.next().unwrap_or(b""), said.next().unwrap_or(b""));
            if got != answer.as_bytes() {
                return Err(format!("line {}, {}: {}, expected {answer}", n + 1, shown(line), got.escape_ascii()));
            }
        }
        if got != answers.iter().map(|answer| format!("{answer}\n")).collect::<String>().into_bytes() {
            return Err(format!("more printed than {} answers", answers.len()));
        }
        writer.join().map_err(|_| "the writing thread failed")??;
        Ok(count)
    }

    /// Sends lines one by one, each after the answer to the one before, while the input stays open. The last line has no
    /// newline; its answer comes as the input is closed.
    fn dialogue(&mut self, path: &str) -> Result<(), String> {
        let mut program = Program::start(path)?;
        for n in 1..=DIALOGUE {
            let last = n == DIALOGUE;
            let mut line = if last { b"sweep".to_vec() } else { self.line() };
            // one line, which the pipe has room for, so that a program that hangs is seen below
            line.truncate(40_000);
            line.iter_mut().filter(|c| **c == b'\n').for_each(|c| *c = b'\r');
            let answer = self.record.console(&line);
            let what = |e: String| format!("line {n}, {}: {e}", shown(&line));
            // in one part or several; before the newline there is no answer
            let ended = [&line[..], b"\n"].concat();
            let mut rest = if last { &line[..] } else { &ended[..] };
            while !rest.is_empty() {
                program.got.extend(program.output.try_iter().flatten());
                if !program.got.is_empty() {
                    return Err(what(format!("\"{}\" before the line's end", program.got.escape_ascii())));
                }
                let part = match self.random.below(4) {
                    0 => 1 + self.random.below(rest.len() as u64) as usize,
                    1 if rest.len() > 1 => rest.len() - 1,
                    _ => rest.len(),
                };
                program.write(&rest[..part]).map_err(what)?;
                rest = &rest[part..];
                if self.random.one_in(8) {
                    thread::sleep(Duration::from_millis(2));
                }
            }
            if last {
                drop(program.input.take());
            }
            let got = program.answer().map_err(what)?;
            equal("answer", got, answer).map_err(what)?;
        }
        equal("after the last answer", program.end()?.escape_ascii().to_string(), String::new())
    }
}

/// What was done, for the report.
fn console_run(console: &mut Console, lines: usize, path: &str) -> Result<Vec<String>, String> {
    let (input, answers) = console.input(lines);
    let bytes = input.len();
    let parts = console.feed(path, input, &answers).map_err(|e| format!("the long input: {e}"))?;
    let mut done = vec![format!("{} lines, {bytes} bytes written in {parts} parts", answers.len())];
    let (mut unfinished, mut empty) = (0, 0);
    for n in 0..SHORT_INPUTS {
        // a new program has a fresh record
        console.record.fresh(255, 255);
        let most = *console.random.pick(&[0, 1, 3, 40]);
        let lines = console.random.below(most + 1) as usize;
        let (input, answers) = console.input(lines);
        unfinished += (!input.is_empty() && !input.ends_with(b"\n")) as u32;
        empty += input.is_empty() as u32;
        console.feed(path, input, &answers).map_err(|e| format!("short input {n}: {e}"))?;
    }
    done.push(format!("{SHORT_INPUTS} short inputs, {unfinished} without a newline at the end, {empty} empty"));
    console.record.fresh(255, 255);
    console.dialogue(path).map_err(|e| format!("the dialogue: {e}"))?;
    done.push(format!("{DIALOGUE} lines sent one by one, each after the answer to the one before"));
    Ok(done)
}

fn console_main() {
    let (seed, lines) = (argument(2, 1), argument(3, 100_000));
    let path = std::env::args().nth(4).unwrap_or_else(|| "target/bin/console".into());
    let mut console = Console::new(seed);
    let begin = Instant::now();
    match console_run(&mut console, lines as usize, &path) {
        Ok(done) => {
            println!("{path}, seed {seed}, in {:.1} s:", begin.elapsed().as_secs_f64());
            done.iter().for_each(|what| println!("  {what}"));
        }
        Err(what) => {
            println!("DIFFERS, {path}, seed {seed}: {what}");
            std::process::exit(1);
        }
    }
    for (form, n) in &console.met {
        println!("    {form:21} {n:9}");
    }
    let missing = forms_missing(&console.met);
    if !missing.is_empty() {
        println!("NOT MET: {}", missing.join(", "));
        std::process::exit(1);
    }
    println!("nothing differs");
}

// ---------------------------------------------------------------------------------------------------------------------
// The run and its report.
// ---------------------------------------------------------------------------------------------------------------------

struct Clock {
    begin: Instant,
    limit: Duration,
    most: u64,
    looked: u64,
    shown: u64,
    ended: bool,
}

impl Clock {
    /// Whether the run ends here; shows the progress now and then.
    fn over(&mut self, run: &Run) -> bool {
        if run.steps >= self.most {
            self.ended = true;
        }
        // looking at the time costs more than a step of some kinds
        if !self.ended && (run.phase == "full" || run.steps >= self.looked + 64) {
            self.looked = run.steps;
            let passed = self.begin.elapsed();
            self.ended = passed >= self.limit;
            if passed.as_secs() >= self.shown + 10 {
                self.shown = passed.as_secs();
                println!("{:4} s, {} phase, {} steps", self.shown, run.phase, run.steps);
            }
        }
        self.ended
    }
}

fn usage() -> ! {
    eprintln!("usage: outside [SEED [SECONDS [STEPS]]]");
    eprintln!("       outside console [SEED [LINES [PATH]]]");
    std::process::exit(2)
}

fn argument(n: usize, default: u64) -> u64 {
    match std::env::args().nth(n) {
        None => default,
        Some(word) => word.parse().unwrap_or_else(|_| usage()),
    }
}

fn phases(run: &mut Run, clock: &mut Clock) -> Result<[u64; 4], String> {
    Ok([run.settings_phase()?, run.limits_phase()?, run.full_phase(clock)?, run.long_phase(clock)?])
}

fn main() {
    if std::env::args().nth(1).as_deref() == Some("console") {
        return console_main();
    }
    let seed = argument(1, 1);
    let limit = Duration::from_secs(argument(2, 120));
    let most = argument(3, u64::MAX);
    let mut run = Run::new(seed);
    let mut clock = Clock { begin: Instant::now(), limit, most, looked: 0, shown: 0, ended: false };
    let [settings, limits, full, long] = match phases(&mut run, &mut clock) {
        Ok(counts) => counts,
        Err(what) => {
            println!("DIFFERS at step {} of the {} phase, seed {}: {what}", run.steps, run.phase, run.seed);
            std::process::exit(1);
        }
    };
    let seconds = clock.begin.elapsed().as_secs_f64();
    println!("seed {seed}: {} steps in {seconds:.1} s", run.steps);
    println!(
        "  records: {} fresh, {} handed in; {} words or drivers changed between steps",
        run.fresh, run.handed_in, run.pokes
    );
    println!("  phases: settings {settings}, limits {limits}, full {full}, long {long}");
    println!("  commands: {} accepted (by number {}); refused:", run.accepted, run.by_number[0]);
    for (value, name) in NAMES {
        let v = value as usize;
        println!("    {value:2} {name:13} {:9}   (by number {})", run.refused[v], run.by_number[v]);
    }
    let [idle, released, host, passthrough] = run.moves;
    println!("  moves: {idle} idle, {released} released, {host} bound to host, {passthrough} bound to passthrough");
    println!("  sweeps: {}, of {} moves", run.sweeps, run.swept);
    println!("  lines of the console: {}", run.lines.values().sum::<u64>());
    for (form, n) in &run.lines {
        println!("    {form:21} {n:9}");
    }
    println!("  compared after every step: the answer, {WORDS} words, {QUEUES} drivers, each buffer lent and");
    println!("    {EDGE} guard places on either side of each");
    println!("  full phase, after every step: the remainder, the limits, the host masks, the configuration,");
    println!("    each slot, the names of a number; of every device, and of one id more, the masks and a listing of");
    println!("    both matrices, the control domains, and 24 queues (usable, driver, target, holder)");
    println!("  long phase, after every step: one queue; after every {SAMPLE}th: the same as in the full phase,");
    println!("    but of one device, and 8 queues");
    println!("  so asked, and the answers where there were several:");
    for (reader, answers) in &run.asked {
        print!("    {reader:18} {:9}", answers.values().sum::<u64>());
        for (answer, n) in answers.iter().filter(|_| answers.len() > 1) {
            print!("   {answer}: {n}");
        }
        println!();
    }
    // each of the eight, by number the four that there are, and each form of an answer line
    let mut missing: Vec<String> = Vec::new();
    for (v, name) in NAMES {
        if run.refused[v as usize] == 0 {
            missing.push(name.to_string());
        }
        if [2, 19, 98, 99].contains(&v) && run.by_number[v as usize] == 0 {
            missing.push(format!("{name} by number"));
        }
    }
    missing.extend(forms_missing(&run.lines));
    if !run.lines.contains_key(NOT_CARRIED_OUT) {
        missing.push("a line not carried out".into());
    }
    if !missing.is_empty() {
        println!("NOT MET: {}", missing.join(", "));
        std::process::exit(1);
    }
    println!("hash over every answer, every buffer lent, and all memory after each step: {:016x}", run.hash.0);
    println!("nothing differs");
}
