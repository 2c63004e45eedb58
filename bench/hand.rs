//! The same job written by hand, for speed and without proofs: what the verified library is measured against.
//! It answers what docs/ say, and the bench compares its answers with the library's before it times anything.

use std::ops::RangeInclusive;

const HEIGHTS: RangeInclusive<i32> = -20_000..=20_000;
const UNREAD: i32 = -32_768;
const TOLERANCE_MAX: u32 = 40_000;
const LIMIT: usize = 256;

#[derive(Clone, Copy, Default)]
pub struct Touch {
    position: u16,
    height: i16,
}

#[derive(Clone, Copy)]
struct Line {
    last: i32,
    slope: i32,
    slack: i32,
}

#[derive(Clone, Copy)]
pub struct Outlook {
    pub floor: Touch,
    pub ceiling: i32,
    summit: Option<(i32, u16)>,
}

impl Touch {
    pub fn position(self) -> u16 {
        self.position
    }

    pub fn height(self) -> i16 {
        self.height
    }
}

/// The height of 16 bits that begins in the middle of its first byte.
fn height(first: u8, second: u8, third: u8) -> i32 {
    i32::from((u32::from_be_bytes([0, first, second, third]) >> 4) as i16)
}

fn heights(record: &[u8]) -> impl Iterator<Item = i32> + '_ {
    record[6..].chunks_exact(2).scan(record[5], |first, pair| {
        let height = height(*first, pair[0], pair[1]);
        *first = pair[1];
        Some(height)
    })
}

fn head(record: &[u8]) -> Line {
    let bits = u64::from_be_bytes([
        0, 0, record[0], record[1], record[2], record[3], record[4], record[5],
    ]);
    Line {
        last: (bits >> 36) as i32,
        slope: (bits >> 20 & 0xffff) as i32,
        slack: (bits >> 4 & 0xffff) as i32,
    }
}

/// Why a record is refused: the number, and the positions that it tells.
#[derive(Clone, Copy)]
pub struct Refused {
    pub number: u8,
    // Whoever calls the library through its exports gets the number alone, so nothing here reads this.
    #[allow(dead_code)]
    pub told: [usize; 2],
}

impl From<u8> for Refused {
    fn from(number: u8) -> Self {
        Refused { number, told: [0; 2] }
    }
}

fn is_outside(height: i32) -> bool {
    height != UNREAD && !HEIGHTS.contains(&height)
}

/// What is told where a height breaks the law: a height out of range counts before it.
#[cold]
fn broken(record: &[u8], line: Line, later: usize) -> Refused {
    if let Some(position) = heights(record).position(is_outside) {
        return Refused { number: 7, told: [position, 0] };
    }
    let height = heights(record).nth(later).unwrap_or(UNREAD);
    let earlier = heights(record).zip(0..later).position(|(h, p)| {
        h != UNREAD && (h - height).abs() > line.slope * (later - p) as i32 + line.slack
    });
    Refused { number: 8, told: [later, earlier.unwrap_or(0)] }
}

/// The range of every height and the law between every two: one pass, which keeps extremes of height ± slope × position.
fn check_heights(record: &[u8], line: Line) -> Result<(), Refused> {
    let (mut greatest, mut least) = (i32::MIN / 2, i32::MAX / 2);
    let mut rise = 0;
    for (position, height) in heights(record).enumerate() {
        if height != UNREAD {
            if !HEIGHTS.contains(&height) {
                return Err(Refused { number: 7, told: [position, 0] });
            }
            let (up, down) = (height + rise, height - rise);
            if up + line.slack < greatest || least < down - line.slack {
                return Err(broken(record, line, position));
            }
            greatest = greatest.max(up);
            least = least.min(down);
        }
        rise += line.slope;
    }
    Ok(())
}

/// The first test that the record fails.
pub fn check(record: &[u8], name: u8) -> Result<(), Refused> {
    if record.len() < 6 {
        return Err(1.into());
    }
    let line = head(record);
    if !(1..=4_000).contains(&line.last) {
        return Err(2.into());
    }
    if !(1..=40_000).contains(&line.slope) {
        return Err(3.into());
    }
    if line.slack > 40_000 {
        return Err(4.into());
    }
    if record.len() != 8 + 2 * line.last as usize {
        return Err(5.into());
    }
    if record[record.len() - 1] & 0xf != 0 {
        return Err(6.into());
    }
    check_heights(record, line)?;
    if name == 0 {
        return Err(9.into());
    }
    Ok(())
}

pub struct Survey<'a> {
    record: &'a [u8],
    line: Line,
    tolerance: i32,
    count: usize,
    touches: [Touch; LIMIT],
}

impl<'a> Survey<'a> {
    /// A survey of a record that passed the tests.
    pub fn open(record: &'a [u8]) -> Self {
        Survey {
            record,
            line: head(record),
            tolerance: 0,
            count: 0,
            touches: [Touch::default(); LIMIT],
        }
    }

    pub fn touches(&self) -> &[Touch] {
        &self.touches[..self.count]
    }

    pub fn tol(&mut self, tolerance: u32) -> Result<(), u8> {
        if tolerance > TOLERANCE_MAX {
            return Err(17);
        }
        self.tolerance = tolerance as i32;
        Ok(())
    }

    /// Floor, ceiling and high's place: the right extremes by a backward pass, then one pass over the gaps.
    pub fn look(&self) -> Option<Outlook> {
        let mut floor = *self.touches().first()?;
        let mut summit: Option<(i32, u16)> = None;
        self.gaps(|touch, gap| {
            if let Some((cap, place)) = gap {
                if summit.is_none_or(|(best, _)| best < cap) {
                    summit = Some((cap, place));
                }
            }
            if let Some(touch) = touch {
                if floor.height < touch.height {
                    floor = touch;
                }
            }
            true
        });
        let height = i32::from(floor.height);
        Some(Outlook {
            floor,
            ceiling: summit.map_or(height, |(cap, _)| cap.max(height)),
            summit,
        })
    }

    /// Each touch with the largest cap of the gap before it, then the strip after the last touch, while wanted.
    #[inline(always)]
    fn gaps(&self, mut wanted: impl FnMut(Option<Touch>, Option<(i32, u16)>) -> bool) {
        let Line { last, slope, slack } = self.line;
        let touches = self.touches();
        let mut falls = [0; LIMIT];
        let mut right = i32::MAX;
        for (fall, touch) in falls.iter_mut().zip(touches).rev() {
            right = right.min(i32::from(touch.height) + slope * i32::from(touch.position));
            *fall = right;
        }
        let mut left = i32::MAX;
        let mut from = 0;
        for (touch, &right) in touches.iter().zip(&falls) {
            let position = i32::from(touch.position);
            let gap = (from < position).then(|| {
                if from == 0 {
                    return (right + slack, 0);
                }
                let roof = |x: i32| (left + slope * x).min(right - slope * x);
                let to = position - 1;
                let crossing = (right - left).max(0) as u32 / (2 * slope as u32);
                let low = (crossing as i32).min(to).max(from);
                let next = (crossing as i32 + 1).min(to).max(from);
                let (at_low, at_next) = (roof(low), roof(next));
                if at_low < at_next {
                    (at_next + slack, next as u16)
                } else {
                    (at_low + slack, low as u16)
                }
            });
            if !wanted(Some(*touch), gap) {
                return;
            }
            left = left.min(i32::from(touch.height) - slope * position);
            from = position + 1;
        }
        if from <= last {
            wanted(None, Some((left + slope * last + slack, last as u16)));
        }
    }

    fn bound(&self, floor: Touch) -> i32 {
        i32::from(floor.height) + self.tolerance
    }

    /// Where high touches; none where settled.
    fn high_place(&self) -> Option<u16> {
        let Some(seen) = self.look() else {
            return Some(0);
        };
        if seen.ceiling <= self.bound(seen.floor) {
            return None;
        }
        seen.summit.map(|(_, place)| place)
    }

    /// Where left touches; none where settled.
    fn left_place(&self) -> Option<u16> {
        let floor = self.touches().iter().copied().reduce(|best, touch| {
            if best.height < touch.height { touch } else { best }
        });
        let Some(floor) = floor else {
            return Some(0);
        };
        let bound = self.bound(floor);
        let mut found = None;
        self.gaps(|_, gap| {
            found = gap.filter(|&(cap, _)| bound < cap).map(|(_, place)| place);
            found.is_none()
        });
        found
    }

    /// Reads the record once and puts the touch in at its place.
    fn touch(&mut self, position: u16) -> Result<(), u8> {
        let at = 5 + 2 * usize::from(position);
        let height = height(self.record[at], self.record[at + 1], self.record[at + 2]);
        if height == UNREAD {
            return Err(16);
        }
        let place = self.touches().partition_point(|t| t.position <= position);
        self.touches.copy_within(place..self.count, place + 1);
        self.touches[place] = Touch {
            position,
            height: height as i16,
        };
        self.count += 1;
        Ok(())
    }

    fn seek(&mut self, place: Option<u16>) -> Result<(), u8> {
        let place = place.ok_or(13)?;
        if self.count == LIMIT {
            return Err(14);
        }
        self.touch(place)
    }

    pub fn high(&mut self) -> Result<(), u8> {
        self.seek(self.high_place())
    }

    pub fn left(&mut self) -> Result<(), u8> {
        self.seek(self.left_place())
    }

    pub fn at(&mut self, position: u32) -> Result<(), u8> {
        if position > self.line.last as u32 {
            return Err(11);
        }
        let position = position as u16;
        if self.touches().binary_search_by_key(&position, |t| t.position).is_ok() {
            return Err(12);
        }
        if self.count == LIMIT {
            return Err(14);
        }
        self.touch(position)
    }

    /// The touches made, and the number of the stop.
    pub fn run(&mut self, budget: u32) -> (u32, u8) {
        let mut made = 0;
        loop {
            let Some(place) = self.high_place() else {
                return (made, 13);
            };
            if self.count == LIMIT {
                return (made, 14);
            }
            if made == budget {
                return (made, 15);
            }
            if let Err(stop) = self.touch(place) {
                return (made, stop);
            }
            made += 1;
        }
    }

    /// The certificate's bytes at the front of the buffer, and how many.
    pub fn certificate(&self, buffer: &mut [u8]) -> Result<usize, u8> {
        let seen = self.look().ok_or(19)?;
        if seen.ceiling > self.bound(seen.floor) {
            return Err(20);
        }
        let size = (98 + 28 * self.count + 7) / 8;
        let mut bits = Bits::new(buffer.get_mut(..size).ok_or(21)?);
        bits.put(12, self.line.last as u32);
        bits.put(16, self.line.slope as u32);
        bits.put(16, self.line.slack as u32);
        bits.put(16, self.tolerance as u32);
        bits.put(9, self.count as u32);
        bits.put(12, u32::from(seen.floor.position));
        bits.put(17, seen.ceiling as u32 & 0x1_ffff);
        for touch in self.touches() {
            bits.put(28, u32::from(touch.position) << 16 | u32::from(touch.height as u16));
        }
        bits.end();
        Ok(size)
    }
}

/// Fields of bits, packed one after another, most significant bit first.
struct Bits<'a> {
    bytes: std::slice::IterMut<'a, u8>,
    held: u64,
    count: u32,
}

impl<'a> Bits<'a> {
    fn new(bytes: &'a mut [u8]) -> Self {
        Bits {
            bytes: bytes.iter_mut(),
            held: 0,
            count: 0,
        }
    }

    fn put(&mut self, width: u32, value: u32) {
        self.held = self.held << width | u64::from(value);
        self.count += width;
        while self.count >= 8 {
            self.count -= 8;
            if let Some(byte) = self.bytes.next() {
                *byte = (self.held >> self.count) as u8;
            }
        }
    }

    fn end(&mut self) {
        if self.count > 0 {
            self.put(8 - self.count, 0);
        }
    }
}

enum Command {
    High,
    Left,
    Ask,
    At(u32),
    Run(u32),
    Tol(u32),
    Unknown,
}

fn number(digits: &[u8]) -> Option<u32> {
    if digits.is_empty() || digits.len() > 5 || !digits.iter().all(u8::is_ascii_digit) {
        return None;
    }
    Some(digits.iter().fold(0, |n, d| 10 * n + u32::from(d - b'0')))
}

fn command(line: &[u8]) -> Command {
    match line {
        b"high" => Command::High,
        b"left" => Command::Left,
        b"ask" => Command::Ask,
        [b'a', b't', b' ', digits @ ..] => number(digits).map_or(Command::Unknown, Command::At),
        [b'r', b'u', b'n', b' ', digits @ ..] => number(digits).map_or(Command::Unknown, Command::Run),
        [b't', b'o', b'l', b' ', digits @ ..] => number(digits).map_or(Command::Unknown, Command::Tol),
        _ => Command::Unknown,
    }
}

/// A space and the number in decimal digits.
fn push_number(out: &mut Vec<u8>, number: i32) {
    out.push(b' ');
    if number < 0 {
        out.push(b'-');
    }
    let mut digits = [0; 10];
    let mut left = number.unsigned_abs();
    let mut at = digits.len();
    loop {
        at -= 1;
        digits[at] = b'0' + (left % 10) as u8;
        left /= 10;
        if left == 0 {
            break;
        }
    }
    out.extend_from_slice(&digits[at..]);
}

fn result(answer: Result<(), u8>) -> u8 {
    answer.err().unwrap_or(0)
}

/// What the program `survey` prints.
pub fn transcript(record: &[u8], input: &[u8]) -> Vec<u8> {
    let mut out = Vec::with_capacity(16 * input.len() / 4);
    if let Err(refused) = check(record, 1) {
        out.extend_from_slice(b"sheet");
        push_number(&mut out, i32::from(refused.number));
        out.push(b'\n');
        return out;
    }
    if input.len() > 4_096 {
        return b"long\n".to_vec();
    }
    let mut survey = Survey::open(record);
    for line in input.split(|&b| b == b'\n').filter(|line| !line.is_empty()) {
        let (verb, number): (&[u8], u8) = match command(line) {
            Command::High => (b"high", result(survey.high())),
            Command::Left => (b"left", result(survey.left())),
            Command::Ask => (b"ask", if survey.count == 0 { 19 } else { 0 }),
            Command::At(position) => (b"at", result(survey.at(position))),
            Command::Run(budget) => (b"run", survey.run(budget).1),
            Command::Tol(tolerance) => (b"tol", result(survey.tol(tolerance))),
            Command::Unknown => (b"?", 22),
        };
        out.extend_from_slice(verb);
        push_number(&mut out, i32::from(number));
        push_number(&mut out, survey.count as i32);
        match survey.look() {
            Some(seen) => {
                push_number(&mut out, i32::from(seen.floor.position));
                push_number(&mut out, i32::from(seen.floor.height));
                push_number(&mut out, seen.ceiling);
            }
            None => out.extend_from_slice(b" - - -"),
        }
        out.push(b'\n');
    }
    out
}
