//! Three sides on the same inputs in one process: the static library as the kit's compiler makes it ("Rattle"), the
//! same source translated to Rust and compiled by rustc ("translated"), and an ordinary Rust program with four 64-bit
//! words a mask ("Rust"). Where the first two are other archives, the environment variables FIRST and SECOND name them when this
//! is compiled. All give the same answers, which is asserted. Each line gives the best of several rounds, in nanoseconds a call,
//! and the ratios of the first two to the third. Buffers are not cleared between calls.

use std::hint::black_box;
use std::time::{Duration, Instant};

const WORDS: usize = 406;
const QUEUES: usize = 65_536;
const LIST_BYTES: usize = 8 * QUEUES;
const MOST_MOVES: u32 = 131_072;

macro_rules! libraries {
    ($($name:ident: $kit:ident, $port:ident ($($p:ident: $t:ty),*) -> $r:ty;)*) => {
        extern "C" {
            $(
                fn $kit($($p: $t),*) -> $r;
                fn $port($($p: $t),*) -> $r;
            )*
        }

        /// The functions of one of the two libraries, called directly.
        impl<const PORT: bool> Record<PORT> {
            $(
                #[inline(always)]
                unsafe fn $name($($p: $t),*) -> $r {
                    if PORT { $port($($p),*) } else { $kit($($p),*) }
                }
            )*
        }
    };
}

libraries! {
    raw_fresh: zk_raw_fresh, port_raw_fresh
        (words: *mut u64, drivers: *mut u8, adapter: u64, domain: u64) -> u8;
    raw_create: zk_raw_create, port_raw_create
        (words: *mut u64, drivers: *mut u8, id: *const u8) -> u8;
    raw_assign_adapter: zk_raw_assign_adapter, port_raw_assign_adapter
        (words: *mut u64, drivers: *mut u8, id: *const u8, text: *const u8, length: usize) -> u8;
    raw_assign_domain: zk_raw_assign_domain, port_raw_assign_domain
        (words: *mut u64, drivers: *mut u8, id: *const u8, text: *const u8, length: usize) -> u8;
    raw_assign_control_domain: zk_raw_assign_control_domain, port_raw_assign_control_domain
        (words: *mut u64, drivers: *mut u8, id: *const u8, text: *const u8, length: usize) -> u8;
    raw_assign_adapter_number: zk_raw_assign_adapter_number, port_raw_assign_adapter_number
        (words: *mut u64, drivers: *mut u8, id: *const u8, number: u64) -> u8;
    raw_assign_domain_number: zk_raw_assign_domain_number, port_raw_assign_domain_number
        (words: *mut u64, drivers: *mut u8, id: *const u8, number: u64) -> u8;
    raw_set_apmask: zk_raw_set_apmask, port_raw_set_apmask
        (words: *mut u64, drivers: *mut u8, text: *const u8, length: usize) -> u8;
    raw_set_aqmask: zk_raw_set_aqmask, port_raw_set_aqmask
        (words: *mut u64, drivers: *mut u8, text: *const u8, length: usize) -> u8;
    raw_configure: zk_raw_configure, port_raw_configure
        (words: *mut u64, drivers: *mut u8, configuration: *const u8) -> u8;
    raw_sweep: zk_raw_sweep, port_raw_sweep
        (words: *const u64, drivers: *mut u8, budget: u32, more: *mut u8) -> u32;
    raw_guest_matrix_masks: zk_raw_guest_matrix_masks, port_raw_guest_matrix_masks
        (words: *const u64, drivers: *const u8, id: *const u8, masks: *mut u8) -> u8;
    raw_line: zk_raw_line, port_raw_line
        (words: *mut u64, drivers: *mut u8, line: *const u8, length: usize, out: *mut u8, size: usize,
         written: *mut usize) -> u8;
    raw_matrix: zk_raw_matrix, port_raw_matrix
        (words: *const u64, drivers: *const u8, id: *const u8, place: usize, buffer: *mut u8, length: usize,
         written: *mut usize, next: *mut usize) -> u8;
}

// ---------------------------------------------------------------------------------------------------------------------
// The ordinary program.
// ---------------------------------------------------------------------------------------------------------------------

type Id = [u8; 16];

#[derive(Clone, Copy, PartialEq, Debug)]
struct Mask([u64; 4]);

impl Mask {
    const NONE: Mask = Mask([0; 4]);
    const ALL: Mask = Mask([u64::MAX; 4]);

    fn has(&self, n: u8) -> bool {
        self.0[n as usize / 64] >> (63 - n % 64) & 1 == 1
    }

    fn set(&mut self, n: u8) {
        self.0[n as usize / 64] |= 1 << (63 - n % 64);
    }

    fn clear(&mut self, n: u8) {
        self.0[n as usize / 64] &= !(1 << (63 - n % 64));
    }

    fn and(&self, other: &Mask) -> Mask {
        Mask(std::array::from_fn(|k| self.0[k] & other.0[k]))
    }

    fn or(&self, other: &Mask) -> Mask {
        Mask(std::array::from_fn(|k| self.0[k] | other.0[k]))
    }

    fn meets(&self, other: &Mask) -> bool {
        (0..4).any(|k| self.0[k] & other.0[k] != 0)
    }

    fn any_above(&self, limit: u8) -> bool {
        (0..=255).any(|n| n > limit && self.has(n))
    }

    fn from_bytes(bytes: &[u8]) -> Mask {
        Mask(std::array::from_fn(|k| u64::from_be_bytes(bytes[8 * k..8 * k + 8].try_into().unwrap())))
    }

    fn put_bytes(&self, out: &mut [u8]) {
        for k in 0..4 {
            out[8 * k..8 * k + 8].copy_from_slice(&self.0[k].to_be_bytes());
        }
    }
}

fn number(text: &[u8]) -> Option<u16> {
    let text = text.strip_suffix(b"\n").unwrap_or(text);
    if text.is_empty() || text.len() > 16 {
        return None;
    }
    let (digits, base) = match text {
        [b'0', b'x', rest @ ..] => (rest, 16),
        [b'0', ..] => (text, 8),
        _ => (text, 10),
    };
    if digits.is_empty() {
        return None;
    }
    let mut value = 0;
    for &c in digits {
        value = value * base as u64 + (c as char).to_digit(base)? as u64;
    }
    (value <= 65_535).then_some(value as u16)
}

#[derive(Clone)]
struct Device {
    id: Id,
    adapters: Mask,
    domains: Mask,
    controls: Mask,
}

#[derive(Clone)]
struct Service {
    highest_adapter: u8,
    highest_domain: u8,
    apmask: Mask,
    aqmask: Mask,
    adapters: Mask,
    domains: Mask,
    controls: Mask,
    types: [u8; 256],
    devices: Vec<Device>,
}

const UNBOUND: u8 = 0;
const HOST: u8 = 1;
const PASSTHROUGH: u8 = 2;

impl Service {
    fn new() -> Service {
        Service {
            highest_adapter: 255,
            highest_domain: 255,
            apmask: Mask::ALL,
            aqmask: Mask::ALL,
            adapters: Mask::NONE,
            domains: Mask::NONE,
            controls: Mask::NONE,
            types: [0; 256],
            devices: Vec::new(),
        }
    }

    fn find(&self, id: &Id) -> Option<usize> {
        self.devices.iter().position(|v| v.id == *id)
    }

    fn create(&mut self, id: &Id) {
        self.devices.push(Device { id: *id, adapters: Mask::NONE, domains: Mask::NONE, controls: Mask::NONE });
    }

    #[inline(never)]
    fn assign(&mut self, id: &Id, kind: u8, text: &[u8]) -> u8 {
        let Some(n) = number(text) else { return 22 };
        self.assign_either(id, kind, n.into())
    }

    #[inline(never)]
    fn assign_number(&mut self, id: &Id, kind: u8, n: u64) -> u8 {
        self.assign_either(id, kind, n)
    }

    #[inline(always)]
    fn assign_either(&mut self, id: &Id, kind: u8, n: u64) -> u8 {
        let Some(i) = self.find(id) else { return 2 };
        let limit = if kind == 0 { self.highest_adapter } else { self.highest_domain };
        if n > limit as u64 {
            return 19;
        }
        let n = n as u8;
        match kind {
            0 => {
                if self.devices[i].adapters.has(n) {
                    return 0;
                }
                let domains = self.devices[i].domains;
                if self.apmask.has(n) && self.aqmask.meets(&domains) {
                    return 99;
                }
                if self
                    .devices
                    .iter()
                    .enumerate()
                    .any(|(j, v)| j != i && v.adapters.has(n) && v.domains.meets(&domains))
                {
                    return 98;
                }
                self.devices[i].adapters.set(n);
            }
            1 => {
                if self.devices[i].domains.has(n) {
                    return 0;
                }
                let adapters = self.devices[i].adapters;
                if self.aqmask.has(n) && self.apmask.meets(&adapters) {
                    return 99;
                }
                if self
                    .devices
                    .iter()
                    .enumerate()
                    .any(|(j, v)| j != i && v.domains.has(n) && v.adapters.meets(&adapters))
                {
                    return 98;
                }
                self.devices[i].domains.set(n);
            }
            _ => self.devices[i].controls.set(n),
        }
        0
    }

    #[inline(never)]
    fn configure(&mut self, drivers: &mut [u8; QUEUES], bytes: &[u8; 352]) -> u8 {
        let adapters = Mask::from_bytes(&bytes[..32]);
        let domains = Mask::from_bytes(&bytes[32..64]);
        let controls = Mask::from_bytes(&bytes[64..96]);
        if adapters.any_above(self.highest_adapter)
            || domains.any_above(self.highest_domain)
            || controls.any_above(self.highest_domain)
        {
            return 19;
        }
        for a in 0..=255 {
            self.types[a as usize] = if adapters.has(a) { bytes[96 + a as usize] } else { 0 };
            if !self.adapters.has(a) {
                continue;
            }
            for d in 0..=255 {
                if self.domains.has(d) && !(adapters.has(a) && domains.has(d)) {
                    drivers[a as usize * 256 + d as usize] = UNBOUND;
                }
            }
        }
        self.adapters = adapters;
        self.domains = domains;
        self.controls = controls;
        0
    }

    fn target(&self, a: u8, d: u8) -> u8 {
        if !self.adapters.has(a) || !self.domains.has(d) {
            UNBOUND
        } else if self.apmask.has(a) && self.aqmask.has(d) {
            HOST
        } else if self.types[a as usize] >= 10 {
            PASSTHROUGH
        } else {
            UNBOUND
        }
    }

    /// The moves used, and whether any remain.
    #[inline(never)]
    fn sweep(&self, drivers: &mut [u8; QUEUES], budget: u32) -> (u32, bool) {
        let budget = budget.min(MOST_MOVES);
        let mut used = 0;
        for a in 0..=255 {
            for d in 0..=255 {
                let driver = &mut drivers[a as usize * 256 + d as usize];
                let target = self.target(a, d);
                while *driver != target {
                    if used == budget {
                        return (used, true);
                    }
                    *driver = if *driver == UNBOUND { target } else { UNBOUND };
                    used += 1;
                }
            }
        }
        (used, false)
    }

    fn guest(&self, drivers: &[u8; QUEUES], device: &Device) -> [Mask; 3] {
        let domains = device.domains.and(&self.domains);
        let mut adapters = Mask::NONE;
        for a in 0..=255 {
            if device.adapters.has(a)
                && self.adapters.has(a)
                && (0..=255).all(|d| !domains.has(d) || drivers[a as usize * 256 + d as usize] == PASSTHROUGH)
            {
                adapters.set(a);
            }
        }
        let assigned = device.controls.or(&device.domains);
        let configured = self.controls.or(&self.domains);
        [adapters, domains, assigned.and(&configured)]
    }

    #[inline(never)]
    fn guest_masks(&self, drivers: &[u8; QUEUES], id: &Id, out: &mut [u8; 96]) -> u8 {
        let Some(i) = self.find(id) else { return 2 };
        for (k, mask) in self.guest(drivers, &self.devices[i]).iter().enumerate() {
            mask.put_bytes(&mut out[32 * k..32 * k + 32]);
        }
        0
    }

    /// Lists what is assigned: the answer, the bytes written and the next place.
    #[inline(never)]
    fn list(&self, id: &Id, place: usize, buffer: &mut [u8]) -> (u8, usize, usize) {
        let Some(i) = self.find(id) else { return (2, 0, place) };
        if buffer.len() < 8 {
            return (28, 0, place);
        }
        let hex = b"0123456789abcdef";
        let device = &self.devices[i];
        let (mut written, mut past) = (0, 0);
        for queue in place.min(QUEUES)..QUEUES {
            let (a, d) = ((queue / 256) as u8, (queue % 256) as u8);
            if !device.adapters.has(a) || !device.domains.has(d) {
                continue;
            }
            if buffer.len() - written < 8 {
                return (0, written, past);
            }
            let digits = |n: u8| [hex[n as usize / 16], hex[n as usize % 16]];
            let ([a1, a0], [d1, d0]) = (digits(a), digits(d));
            buffer[written..written + 8].copy_from_slice(&[a1, a0, b'.', b'0', b'0', d1, d0, b'\n']);
            written += 8;
            past = queue + 1;
        }
        (0, written, QUEUES)
    }
}

// ---------------------------------------------------------------------------------------------------------------------
// The same with lines of the console.
// ---------------------------------------------------------------------------------------------------------------------

fn digit(c: u8) -> Option<u64> {
    (c as char).to_digit(16).map(u64::from)
}

fn id_text(text: &[u8]) -> Option<Id> {
    if text.len() != 32 {
        return None;
    }
    let half = |digits: &[u8]| digits.iter().try_fold(0, |value, &c| Some(value << 4 | digit(c)?));
    let (hi, lo) = (half(&text[..16])?, half(&text[16..])?);
    Some(((hi as u128) << 64 | lo as u128).to_be_bytes())
}

fn hex_mask(text: &[u8]) -> Option<Mask> {
    let digits = text.strip_prefix(b"0x")?;
    if digits.is_empty() || digits.len() > 64 {
        return None;
    }
    let mut mask = Mask::NONE;
    for (k, &c) in digits.iter().enumerate() {
        mask.0[k / 16] |= digit(c)? << (60 - 4 * (k % 16));
    }
    Some(mask)
}

fn mask_text(text: &[u8], old: &Mask) -> Option<Mask> {
    if text.starts_with(b"0x") {
        return hex_mask(text);
    }
    let mut mask = *old;
    for item in text.split(|&c| c == b',') {
        match item {
            [b'+', n @ ..] => mask.set(u8::try_from(number(n)?).ok()?),
            [b'-', n @ ..] => mask.clear(u8::try_from(number(n)?).ok()?),
            _ => return None,
        }
    }
    Some(mask)
}

fn config_text(masks: [&[u8]; 3], types: &[u8]) -> Option<[u8; 352]> {
    let mut bytes = [0; 352];
    for (k, text) in masks.into_iter().enumerate() {
        hex_mask(text)?.put_bytes(&mut bytes[32 * k..32 * k + 32]);
    }
    if types.len() != 512 {
        return None;
    }
    for (k, pair) in types.chunks_exact(2).enumerate() {
        bytes[96 + k] = (digit(pair[0])? << 4 | digit(pair[1])?) as u8;
    }
    Some(bytes)
}

fn kind_text(text: &[u8]) -> Option<u8> {
    match text {
        b"adapter" => Some(0),
        b"domain" => Some(1),
        b"control" => Some(2),
        _ => None,
    }
}

fn errno_name(value: u8) -> &'static str {
    match value {
        2 => "ENOENT",
        16 => "EBUSY",
        17 => "EEXIST",
        19 => "ENODEV",
        28 => "ENOSPC",
        98 => "EADDRINUSE",
        99 => "EADDRNOTAVAIL",
        _ => "EINVAL",
    }
}

/// What a line is answered: an errno value or 0, what a move did, or the moves of a sweep.
enum Said {
    Answer(u8),
    Moved(&'static str),
    Used(u32),
}

struct Console {
    service: Service,
    drivers: Box<[u8; QUEUES]>,
    open: Vec<Id>,
}

impl Console {
    /// Carries out a line, and adds its answer line.
    #[inline(never)]
    fn line(&mut self, line: &[u8], out: &mut Vec<u8>) {
        match self.carry_out(line).unwrap_or(Said::Answer(22)) {
            Said::Answer(0) => out.extend_from_slice(b"ok"),
            Said::Answer(errno) => {
                out.extend_from_slice(b"refused ");
                out.extend_from_slice(errno_name(errno).as_bytes());
            }
            Said::Moved(name) => {
                out.extend_from_slice(b"ok ");
                out.extend_from_slice(name.as_bytes());
            }
            Said::Used(moves) => out.extend_from_slice(format!("ok {moves}").as_bytes()),
        }
        out.push(b'\n');
    }

    /// Nothing where it is bad text.
    fn carry_out(&mut self, line: &[u8]) -> Option<Said> {
        if line.len() > 1_024 || line.contains(&b'\n') {
            return None;
        }
        let mut words: [&[u8]; 5] = [b""; 5];
        let mut count = 0;
        for word in line.split(|&c| c == b' ') {
            *words.get_mut(count)? = word;
            count += 1;
        }
        let answer = match words[..count] {
            [b"assign", id, kind, n] => {
                let (id, kind, n) = (id_text(id)?, kind_text(kind)?, number(n)?);
                self.service.assign_either(&id, kind, n.into())
            }
            [b"unassign", id, kind, n] => self.unassign(&id_text(id)?, kind_text(kind)?, number(n)?),
            [b"move", apid, apqi] => {
                let (apid, apqi) = (number(apid)?, number(apqi)?);
                return Some(Said::Moved(self.move_queue(apid.try_into().ok()?, apqi.try_into().ok()?)));
            }
            [b"sweep"] => return Some(Said::Used(self.service.sweep(&mut self.drivers, MOST_MOVES).0)),
            [b"create", id] => self.create(&id_text(id)?),
            [b"remove", id] => self.remove(&id_text(id)?),
            [b"open", id] => self.open(&id_text(id)?),
            [b"close", id] => self.close(&id_text(id)?),
            [b"apmask", text] => {
                let new = mask_text(text, &self.service.apmask)?;
                self.set_masks(new, self.service.aqmask)
            }
            [b"aqmask", text] => {
                let new = mask_text(text, &self.service.aqmask)?;
                self.set_masks(self.service.apmask, new)
            }
            [b"config", adapters, domains, controls, types] => {
                let bytes = config_text([adapters, domains, controls], types)?;
                self.service.configure(&mut self.drivers, &bytes)
            }
            _ => return None,
        };
        Some(Said::Answer(answer))
    }

    fn unassign(&mut self, id: &Id, kind: u8, n: u16) -> u8 {
        let Some(i) = self.service.find(id) else { return 2 };
        let limit = if kind == 0 { self.service.highest_adapter } else { self.service.highest_domain };
        if n > limit.into() {
            return 19;
        }
        let device = &mut self.service.devices[i];
        match kind {
            0 => device.adapters.clear(n as u8),
            1 => device.domains.clear(n as u8),
            _ => device.controls.clear(n as u8),
        }
        0
    }

    fn move_queue(&mut self, apid: u8, apqi: u8) -> &'static str {
        let target = self.service.target(apid, apqi);
        let driver = &mut self.drivers[apid as usize * 256 + apqi as usize];
        if *driver == target {
            return "idle";
        }
        *driver = if *driver == UNBOUND { target } else { UNBOUND };
        ["released", "host", "passthrough"][*driver as usize]
    }

    fn create(&mut self, id: &Id) -> u8 {
        if self.service.find(id).is_some() {
            return 17;
        }
        if self.service.devices.len() == 8 {
            return 28;
        }
        self.service.create(id);
        0
    }

    fn remove(&mut self, id: &Id) -> u8 {
        let Some(i) = self.service.find(id) else { return 2 };
        if self.open.contains(id) {
            return 16;
        }
        self.service.devices.remove(i);
        0
    }

    fn open(&mut self, id: &Id) -> u8 {
        if self.service.find(id).is_none() {
            return 2;
        }
        if self.open.contains(id) {
            return 16;
        }
        self.open.push(*id);
        0
    }

    fn close(&mut self, id: &Id) -> u8 {
        if self.service.find(id).is_none() {
            return 2;
        }
        let Some(k) = self.open.iter().position(|other| other == id) else { return 22 };
        self.open.remove(k);
        0
    }

    fn set_masks(&mut self, apmask: Mask, aqmask: Mask) -> u8 {
        let taken = |device: &Device| device.adapters.meets(&apmask) && device.domains.meets(&aqmask);
        if self.service.devices.iter().any(taken) {
            return 98;
        }
        self.service.apmask = apmask;
        self.service.aqmask = aqmask;
        0
    }
}

// ---------------------------------------------------------------------------------------------------------------------
// The three sides.
// ---------------------------------------------------------------------------------------------------------------------

fn halves(id: &Id) -> (u64, u64) {
    (u64::from_be_bytes(id[..8].try_into().unwrap()), u64::from_be_bytes(id[8..].try_into().unwrap()))
}

fn device_id(n: u8) -> Id {
    let mut id = [0; 16];
    id[0] = n.wrapping_mul(37);
    id[15] = n;
    id
}

/// What a library keeps: the kit's, or with PORT the translated one.
struct Record<const PORT: bool> {
    words: Vec<u64>,
    drivers: Vec<u8>,
}

impl<const PORT: bool> Record<PORT> {
    fn new() -> Record<PORT> {
        let mut record = Record { words: vec![0; WORDS], drivers: vec![0; QUEUES] };
        let (words, drivers) = record.lend();
        assert_eq!(unsafe { Self::raw_fresh(words, drivers, 255, 255) }, 0);
        record
    }

    fn lend(&mut self) -> (*mut u64, *mut u8) {
        (self.words.as_mut_ptr(), self.drivers.as_mut_ptr())
    }

    fn create(&mut self, id: &Id) -> u8 {
        let (words, drivers) = self.lend();
        unsafe { Self::raw_create(words, drivers, id.as_ptr()) }
    }

    #[inline(always)]
    fn assign(&mut self, id: &Id, kind: u8, text: &[u8]) -> u8 {
        let ((words, drivers), id, length) = (self.lend(), id.as_ptr(), text.len());
        unsafe {
            match kind {
                0 => Self::raw_assign_adapter(words, drivers, id, text.as_ptr(), length),
                1 => Self::raw_assign_domain(words, drivers, id, text.as_ptr(), length),
                _ => Self::raw_assign_control_domain(words, drivers, id, text.as_ptr(), length),
            }
        }
    }

    #[inline(always)]
    fn assign_number(&mut self, id: &Id, kind: u8, n: u64) -> u8 {
        let (words, drivers) = self.lend();
        unsafe {
            match kind {
                0 => Self::raw_assign_adapter_number(words, drivers, id.as_ptr(), n),
                _ => Self::raw_assign_domain_number(words, drivers, id.as_ptr(), n),
            }
        }
    }

    fn set_masks(&mut self, ap: &str, aq: &str) {
        let (words, drivers) = self.lend();
        assert_eq!(unsafe { Self::raw_set_apmask(words, drivers, ap.as_ptr(), ap.len()) }, 0);
        assert_eq!(unsafe { Self::raw_set_aqmask(words, drivers, aq.as_ptr(), aq.len()) }, 0);
    }

    #[inline(always)]
    fn configure(&mut self, bytes: &[u8; 352]) -> u8 {
        let (words, drivers) = self.lend();
        unsafe { Self::raw_configure(words, drivers, bytes.as_ptr()) }
    }

    /// A sweep with all the moves that there can be: its time, the moves used, and whether any remain.
    fn sweep(&mut self) -> (Duration, (u32, u8)) {
        let ((words, drivers), mut used, mut more) = (self.lend(), 0, 9);
        let time = timed(|| used = unsafe { Self::raw_sweep(words, drivers, black_box(MOST_MOVES), &mut more) });
        (time, (used, more))
    }

    /// Lists what is assigned, from the start: the time, and the answer, the bytes written and the next place.
    fn list(&self, id: &Id, buffer: &mut [u8]) -> (Duration, (u8, usize, usize)) {
        let (mut answer, mut written, mut next) = (9, 9, 9);
        let (words, drivers) = (self.words.as_ptr(), self.drivers.as_ptr());
        let time = timed(|| {
            answer = unsafe {
                let (id, place, buffer, length) = (id.as_ptr(), black_box(0), buffer.as_mut_ptr(), buffer.len());
                Self::raw_matrix(words, drivers, id, place, buffer, length, &mut written, &mut next)
            };
        });
        (time, (answer, written, next))
    }

    /// Everything that either keeps.
    fn assert_same(&self, s: &Service, drivers: &[u8; QUEUES]) {
        assert!(self.drivers[..] == drivers[..], "drivers differ");
        let at = |k: usize| Mask(self.words[k..k + 4].try_into().unwrap());
        assert_eq!([at(2), at(6), at(10), at(14), at(18)], [s.apmask, s.aqmask, s.adapters, s.domains, s.controls]);
        assert!((0..256).all(|a| self.words[22 + a] == s.types[a] as u64), "types differ");
        for (p, device) in s.devices.iter().enumerate() {
            let k = 278 + 16 * p;
            assert_eq!((self.words[k + 2], self.words[k + 3]), halves(&device.id));
            assert_eq!([at(k + 4), at(k + 8), at(k + 12)], [device.adapters, device.domains, device.controls]);
        }
    }
}

struct Sides {
    kit: Record<false>,
    port: Record<true>,
    service: Service,
    other: Box<[u8; QUEUES]>,
}

impl Sides {
    fn new() -> Sides {
        Sides {
            kit: Record::new(),
            port: Record::new(),
            service: Service::new(),
            other: vec![0; QUEUES].into_boxed_slice().try_into().unwrap(),
        }
    }

    fn create(&mut self, id: &Id) {
        assert_eq!([self.kit.create(id), self.port.create(id)], [0; 2]);
        self.service.create(id);
    }

    fn assign(&mut self, id: &Id, kind: u8, n: u8) {
        let text = format!("{n}");
        let text = text.as_bytes();
        let library = [self.kit.assign(id, kind, text), self.port.assign(id, kind, text)];
        assert_eq!((library, self.service.assign(id, kind, text)), ([0; 2], 0));
    }

    fn set_masks(&mut self, apmask: Mask, aqmask: Mask) {
        let text = |m: Mask| format!("0x{}", m.0.map(|w| format!("{w:016x}")).concat());
        let (ap, aq) = (text(apmask), text(aqmask));
        self.kit.set_masks(&ap, &aq);
        self.port.set_masks(&ap, &aq);
        self.service.apmask = apmask;
        self.service.aqmask = aqmask;
    }

    fn configure(&mut self, bytes: &[u8; 352]) {
        let library = [self.kit.configure(bytes), self.port.configure(bytes)];
        assert_eq!((library, self.service.configure(&mut self.other, bytes)), ([0; 2], 0));
    }

    fn sweep(&mut self) {
        self.kit.sweep();
        self.port.sweep();
        self.service.sweep(&mut self.other, MOST_MOVES);
        self.assert_same();
    }

    /// Everything that the sides keep.
    fn assert_same(&self) {
        self.kit.assert_same(&self.service, &self.other);
        self.port.assert_same(&self.service, &self.other);
    }
}

fn configuration(adapters: Mask, domains: Mask, hardware: u8) -> [u8; 352] {
    let mut bytes = [hardware; 352];
    for (k, mask) in [adapters, domains, domains].iter().enumerate() {
        mask.put_bytes(&mut bytes[32 * k..32 * k + 32]);
    }
    bytes
}

fn timed(work: impl FnOnce()) -> Duration {
    let begin = Instant::now();
    work();
    begin.elapsed()
}

/// The best of several rounds of the three, in turn; the first warms up. A round answers the time of each.
fn best(rounds: usize, mut round: impl FnMut() -> [Duration; 3]) -> [Duration; 3] {
    round();
    let mut best = [Duration::MAX; 3];
    for _ in 0..rounds {
        let times = round();
        for side in 0..3 {
            best[side] = best[side].min(times[side]);
        }
    }
    best
}

fn show(name: &str, calls: u32, times: [Duration; 3]) {
    let [kit, port, rust] = times.map(|d| d.as_nanos() as f64 / calls as f64);
    let (first, second) = (option_env!("FIRST").unwrap_or("Rattle"), option_env!("SECOND").unwrap_or("translated"));
    println!(
        "{name:56} {first} {kit:9.1} ns   {second} {port:9.1} ns   Rust {rust:9.1} ns   ratio {:.2} and {:.2}",
        kit / rust,
        port / rust
    );
}

struct Random(u64);

impl Random {
    fn below(&mut self, n: usize) -> usize {
        self.0 = self.0.wrapping_mul(6_364_136_223_846_793_005).wrapping_add(1_442_695_040_888_963_407);
        (self.0 >> 33) as usize % n
    }
}

// ---------------------------------------------------------------------------------------------------------------------
// (a) A million assigns.
// ---------------------------------------------------------------------------------------------------------------------

struct Command {
    device: u8,
    kind: u8,
    number: u8,
    length: u8,
    text: [u8; 8],
}

fn command(random: &mut Random, device: usize, n: usize) -> Command {
    let mut spelled = match random.below(4) {
        0 | 1 => format!("{n}"),
        2 => format!("0x{n:x}"),
        _ => format!("0{n:o}"),
    };
    if random.below(2) == 0 {
        spelled.push('\n');
    }
    let mut text = [0; 8];
    text[..spelled.len()].copy_from_slice(spelled.as_bytes());
    Command { device: device as u8, kind: (device >= 4) as u8, number: n as u8, length: spelled.len() as u8, text }
}

const BATCHES: usize = 1_000;
const BATCH: usize = 1_000;
const BATCH_ACCEPTED: usize = 340;
const BATCH_IN_USE: usize = 330;

impl<const PORT: bool> Record<PORT> {
    /// The time of a batch, after going back to the words at the start.
    fn batch<const BY_NUMBER: bool>(
        &mut self,
        start: &[u64],
        ids: &[Id],
        batch: &[Command],
        answers: &mut [u8],
    ) -> Duration {
        self.words.copy_from_slice(start);
        timed(|| {
            for (c, answer) in batch.iter().zip(answers) {
                let id = &ids[c.device as usize];
                *answer = if BY_NUMBER {
                    self.assign_number(id, c.kind, black_box(c.number).into())
                } else {
                    self.assign(id, c.kind, &black_box(&c.text)[..c.length as usize])
                };
            }
        })
    }
}

/// Eight devices in four pairs. Devices 0 to 3 hold two domains each and ask for adapters; 4 to 7 hold two adapters each and
/// ask for domains. The two of a pair hold the same numbers, so what one has of the other kind is in use for the other.
/// Numbers from 170 on are in both host masks, and what the devices hold is such, so asking for another of them meets a
/// reserved queue. Of the others, 0 to 42 are assigned to the first of a pair and 43 to 84 to the second; 85 to 169 are
/// free.
fn pairs(sides: &mut Sides) {
    let mut host = Mask::NONE;
    (170..=255).for_each(|n| host.set(n));
    sides.set_masks(host, host);
    for n in 0..8 {
        sides.create(&device_id(n));
    }
    for n in 0..8 {
        let (id, pair, kind) = (device_id(n), n / 2 % 2, (n >= 4) as u8);
        sides.assign(&id, 1 - kind, 180 + pair);
        sides.assign(&id, 1 - kind, 220 + pair);
        for number in if n % 2 == 0 { 0..=42 } else { 43..=84 } {
            sides.assign(&id, kind, number);
        }
    }
    sides.assert_same();
}

/// A batch asks for each of the free numbers once in a pair, for one of the two.
///
/// So a batch of 1,000 has 340 accepted (all of them new: four pairs of 85), 330 refused with 98 and 330 with 99. Before
/// each of 1,000 batches the sides go back to the state at the start, outside of the timed part.
///
/// With BY_NUMBER the same commands are given the number itself.
fn assigns<const BY_NUMBER: bool>() {
    let mut sides = Sides::new();
    pairs(&mut sides);
    let mut random = Random(12_345);
    let mut commands = Vec::with_capacity(BATCHES * BATCH);
    for _ in 0..BATCHES {
        let mut batch = Vec::with_capacity(BATCH);
        for pair in 0..4 {
            for n in 85..170 {
                let device = 2 * pair + random.below(2);
                batch.push(command(&mut random, device, n));
            }
        }
        for _ in 0..BATCH_IN_USE {
            let (pair, n) = (random.below(4), random.below(85));
            let device = 2 * pair + (n <= 42) as usize;
            batch.push(command(&mut random, device, n));
        }
        while batch.len() < BATCH {
            let (device, n) = (random.below(8), 170 + random.below(86));
            batch.push(command(&mut random, device, n));
        }
        for k in (1..BATCH).rev() {
            batch.swap(k, random.below(k + 1));
        }
        commands.extend(batch);
    }

    let ids: Vec<Id> = (0..8).map(device_id).collect();
    let (kit, port, service) = (sides.kit.words.clone(), sides.port.words.clone(), sides.service.clone());
    let mut answers: [Vec<u8>; 3] = std::array::from_fn(|_| vec![0u8; BATCHES * BATCH]);
    let times = best(7, || {
        let mut times = [Duration::ZERO; 3];
        for (k, batch) in commands.chunks(BATCH).enumerate() {
            // in turn, as the first to go brings the batch into the cache
            for side in [k % 3, (k + 1) % 3, (k + 2) % 3] {
                let answers = &mut answers[side][k * BATCH..(k + 1) * BATCH];
                times[side] += match side {
                    0 => sides.kit.batch::<BY_NUMBER>(&kit, &ids, batch, answers),
                    1 => sides.port.batch::<BY_NUMBER>(&port, &ids, batch, answers),
                    _ => {
                        sides.service.devices.clone_from(&service.devices);
                        timed(|| {
                            for (c, answer) in batch.iter().zip(answers) {
                                let id = &ids[c.device as usize];
                                *answer = if BY_NUMBER {
                                    sides.service.assign_number(id, c.kind, black_box(c.number).into())
                                } else {
                                    sides.service.assign(id, c.kind, &black_box(&c.text)[..c.length as usize])
                                };
                            }
                        })
                    }
                };
            }
        }
        assert!(answers[0] == answers[2] && answers[1] == answers[2], "answers differ");
        sides.assert_same();
        times
    });
    let count = |value| answers[2].iter().filter(|&&a| a == value).count();
    let counts = [count(0), count(98), count(99)];
    assert_eq!(
        counts,
        [BATCHES * BATCH_ACCEPTED, BATCHES * BATCH_IN_USE, BATCHES * (BATCH - BATCH_ACCEPTED - BATCH_IN_USE)]
    );
    assert!(counts.iter().all(|&n| n >= 300_000));
    let form = if BY_NUMBER { "by number" } else { "with text" };
    show(
        &format!("assign {form}: {} accepted, {} 98, {} 99", counts[0], counts[1], counts[2]),
        (BATCHES * BATCH) as u32,
        times,
    );
}

// ---------------------------------------------------------------------------------------------------------------------
// (b) A million lines of the console.
// ---------------------------------------------------------------------------------------------------------------------

/// The longest answer line.
const ANSWER_BYTES: usize = 22;

impl<const PORT: bool> Record<PORT> {
    /// The time of a batch of lines, after going back to the record at the start. The answer lines follow each other.
    fn lines(&mut self, start: &(Vec<u64>, Vec<u8>), batch: &[Vec<u8>], out: &mut Vec<u8>) -> Duration {
        self.words.copy_from_slice(&start.0);
        self.drivers.copy_from_slice(&start.1);
        out.resize(BATCH * ANSWER_BYTES, 0);
        let ((words, drivers), mut at, mut refused) = (self.lend(), 0, 0);
        let time = timed(|| {
            for line in batch {
                let (text, length, mut written) = (black_box(line).as_ptr(), line.len(), 0);
                let (place, size) = (out[at..].as_mut_ptr(), out.len() - at);
                refused |= unsafe { Self::raw_line(words, drivers, text, length, place, size, &mut written) };
                at += written;
            }
        });
        assert_eq!(refused, 0);
        out.truncate(at);
        time
    }
}

/// A number in one of the forms.
fn spelled(random: &mut Random, n: usize) -> String {
    match random.below(4) {
        0 | 1 => format!("{n}"),
        2 => format!("0x{n:x}"),
        _ => format!("0{n:o}"),
    }
}

/// Lines on the devices of `pairs`: an assignment, an unassignment and a move in turn. Of the assignments, a third asks for
/// free numbers, a third for numbers of the other device of a pair, a third for reserved ones. Unassignments are of numbers
/// that are free at the start, so that some were assigned before; one in four is of no device, of a number above the limit,
/// or bad text. Moves are of few queues, half of which are due for two moves; one in eight has a number above 255.
fn some_line(random: &mut Random, k: usize) -> Vec<u8> {
    let id = |device: usize| device_id(device as u8).map(|byte| format!("{byte:02x}")).concat();
    let kind = |device: usize| if device >= 4 { "domain" } else { "adapter" };
    let (pair, which) = (random.below(4), random.below(2));
    let device = 2 * pair + which;
    let line = match k % 3 {
        0 => {
            let n = match random.below(3) {
                0 => 85 + random.below(85),
                1 if which == 0 => 43 + random.below(42),
                1 => random.below(43),
                _ => 170 + random.below(86),
            };
            format!("assign {} {} {}", id(device), kind(device), spelled(random, n))
        }
        1 => {
            let (n, case) = (85 + random.below(85), random.below(12));
            let name = if case == 0 { id(8) } else { id(device) };
            let text = spelled(random, if case == 1 { 256 + n } else { n });
            let comma = if case == 2 { "," } else { "" };
            format!("unassign {name} {} {text}{comma}", kind(device))
        }
        _ => {
            let a = if which == 0 { random.below(16) } else { 170 + random.below(16) };
            let d = [4, 180, 200, 255][pair];
            let above = if random.below(8) == 0 { 256 } else { 0 };
            format!("move {} {}", spelled(random, a), spelled(random, above + d))
        }
    };
    line.into_bytes()
}

fn console_lines() {
    let mut sides = Sides::new();
    sides.configure(&configuration(Mask::ALL, Mask::ALL, 10));
    sides.set_masks(EVERY_OTHER, Mask::ALL);
    sides.sweep();
    // with other host masks moves are due
    pairs(&mut sides);
    let mut random = Random(54_321);
    let lines: Vec<Vec<u8>> = (0..BATCHES * BATCH).map(|k| some_line(&mut random, k)).collect();

    let kit = (sides.kit.words.clone(), sides.kit.drivers.clone());
    let port = (sides.port.words.clone(), sides.port.drivers.clone());
    let mut console = Console { service: sides.service.clone(), drivers: sides.other.clone(), open: Vec::new() };
    let mut outs: [Vec<u8>; 3] = std::array::from_fn(|_| Vec::with_capacity(BATCH * ANSWER_BYTES));
    let mut counts = [0; 2];
    let times = best(7, || {
        let mut times = [Duration::ZERO; 3];
        counts = [0; 2];
        for (k, batch) in lines.chunks(BATCH).enumerate() {
            for side in [k % 3, (k + 1) % 3, (k + 2) % 3] {
                let out = &mut outs[side];
                times[side] += match side {
                    0 => sides.kit.lines(&kit, batch, out),
                    1 => sides.port.lines(&port, batch, out),
                    _ => {
                        console.service.devices.clone_from(&sides.service.devices);
                        console.drivers.copy_from_slice(&sides.other[..]);
                        out.clear();
                        timed(|| batch.iter().for_each(|line| console.line(black_box(line), out)))
                    }
                };
            }
            assert!(outs[0] == outs[2] && outs[1] == outs[2], "answers differ");
            let refused = outs[2].split(|&c| c == b'\n').filter(|answer| answer.starts_with(b"refused ")).count();
            counts = [counts[0] + BATCH - refused, counts[1] + refused];
        }
        sides.kit.assert_same(&console.service, &console.drivers);
        sides.port.assert_same(&console.service, &console.drivers);
        times
    });
    assert!(counts.iter().all(|&n| n >= 300_000));
    let name = format!("line of the console: {} accepted, {} refused", counts[0], counts[1]);
    show(&name, (BATCHES * BATCH) as u32, times);
}

// ---------------------------------------------------------------------------------------------------------------------
// (c) to (f).
// ---------------------------------------------------------------------------------------------------------------------

const EVERY_OTHER: Mask = Mask([0xaaaa_aaaa_aaaa_aaaa; 4]);
const THE_OTHERS: Mask = Mask([0x5555_5555_5555_5555; 4]);

const CONFIGURES: usize = 100;
const GUEST_MASKS: u32 = 20;

impl<const PORT: bool> Record<PORT> {
    /// The time of all the calls.
    fn configures(&mut self, configurations: &[[u8; 352]; 2]) -> Duration {
        timed(|| {
            for k in 0..CONFIGURES {
                let answer = self.configure(black_box(&configurations[k % 2]));
                assert_eq!(black_box(answer), 0);
            }
        })
    }

    /// The time of all the calls.
    fn guest_masks(&self, id: &Id, out: &mut [u8; 96]) -> Duration {
        timed(|| {
            for _ in 0..GUEST_MASKS {
                let (words, drivers) = (black_box(self.words.as_ptr()), black_box(self.drivers.as_ptr()));
                let answer = unsafe { Self::raw_guest_matrix_masks(words, drivers, id.as_ptr(), out.as_mut_ptr()) };
                assert_eq!(answer, 0);
            }
        })
    }
}

fn configures() {
    let mut sides = Sides::new();
    let configurations = [configuration(EVERY_OTHER, EVERY_OTHER, 11), configuration(Mask::ALL, Mask::ALL, 10)];
    sides.configure(&configurations[1]);
    sides.sweep();
    let times = best(9, || {
        let kit = sides.kit.configures(&configurations);
        let port = sides.port.configures(&configurations);
        let rust = timed(|| {
            for k in 0..CONFIGURES {
                let answer = sides.service.configure(&mut sides.other, black_box(&configurations[k % 2]));
                assert_eq!(black_box(answer), 0);
            }
        });
        sides.assert_same();
        [kit, port, rust]
    });
    show("configure: 256 by 256 and 128 by 128 in turn", CONFIGURES as u32, times);
}

fn sweeps() {
    let mut sides = Sides::new();
    sides.configure(&configuration(Mask::ALL, Mask::ALL, 10));
    sides.set_masks(EVERY_OTHER, Mask::ALL);
    sides.sweep();
    let mut now = EVERY_OTHER;
    let times = best(25, || {
        now = if now == EVERY_OTHER { THE_OTHERS } else { EVERY_OTHER };
        sides.set_masks(now, Mask::ALL);
        let (kit, a) = sides.kit.sweep();
        let (port, b) = sides.port.sweep();
        let mut answer = (0, true);
        let rust = timed(|| answer = sides.service.sweep(&mut sides.other, black_box(MOST_MOVES)));
        assert_eq!(([a, b], answer), ([(MOST_MOVES, 0); 2], (MOST_MOVES, false)));
        sides.assert_same();
        [kit, port, rust]
    });
    show("sweep after the host masks are exchanged: 131072 moves", 1, times);
}

/// A device with everything assigned, everything configured and bound to passthrough.
fn whole_matrix() -> (Sides, Id) {
    let mut sides = Sides::new();
    let id = device_id(5);
    sides.set_masks(Mask::NONE, Mask::NONE);
    sides.configure(&configuration(Mask::ALL, Mask::ALL, 10));
    sides.sweep();
    sides.create(&id);
    for n in 0..=255 {
        sides.assign(&id, 0, n);
        sides.assign(&id, 1, n);
        sides.assign(&id, 2, n);
    }
    sides.assert_same();
    (sides, id)
}

fn listings() {
    let (sides, id) = whole_matrix();
    let mut buffers = [vec![0u8; LIST_BYTES], vec![0u8; LIST_BYTES], vec![0u8; LIST_BYTES]];
    let times = best(25, || {
        let [a, b, c] = &mut buffers;
        let (kit, first) = sides.kit.list(&id, a);
        let (port, second) = sides.port.list(&id, b);
        let mut third = (9, 9, 9);
        let rust = timed(|| third = sides.service.list(&id, black_box(0), c));
        assert_eq!([first, second, third], [(0, LIST_BYTES, QUEUES); 3]);
        assert!(a == c && b == c, "listings differ");
        [kit, port, rust]
    });
    show("list: 65536 lines", 1, times);
}

fn guest_masks() {
    let (sides, id) = whole_matrix();
    let (mut a, mut b, mut c) = ([0; 96], [1; 96], [2; 96]);
    let times = best(15, || {
        let kit = sides.kit.guest_masks(&id, &mut a);
        let port = sides.port.guest_masks(&id, &mut b);
        let rust = timed(|| {
            for _ in 0..GUEST_MASKS {
                assert_eq!(black_box(&sides.service).guest_masks(black_box(&sides.other), &id, &mut c), 0);
            }
        });
        assert_eq!([a, b, c], [[255; 96]; 3]);
        [kit, port, rust]
    });
    show("guest masks: 256 by 256", GUEST_MASKS, times);
}

fn main() {
    assigns::<false>();
    assigns::<true>();
    console_lines();
    configures();
    sweeps();
    listings();
    guest_masks();
}
