//! Runs the verified library and the hand-written program on the same inputs.
//!
//! `bench compare` compares their answers, `bench time` prints the ratios of their times,
//! `bench repeat WHO JOB TIMES` repeats one job, for a tool that counts instructions.

mod hand;

use std::hint::black_box;
use std::time::Instant;

#[repr(C)]
#[derive(Clone, Copy, Debug, Default, PartialEq)]
struct Figures {
    made: u32,
    stop: u8,
    touches: u16,
    place: u16,
    floor: i16,
    ceiling: i32,
}

#[link(name = "exports", kind = "static")]
#[link(name = "exports_text", kind = "static")]
#[link(name = "libc_c", kind = "static")]
#[link(name = "os_c", kind = "static")]
unsafe extern "C" {
    fn survey_check(record: *const u8, record_length: usize, name: u8) -> u8;
    fn survey_run(
        record: *const u8,
        record_length: usize,
        tolerance: u32,
        budget: u32,
        figures: *mut Figures,
    ) -> u8;
    fn survey_certificate(
        record: *const u8,
        record_length: usize,
        tolerance: u32,
        buffer: *mut u8,
        room: usize,
        length: *mut usize,
    ) -> u8;
    fn survey_transcript(
        record: *const u8,
        record_length: usize,
        input: *const u8,
        input_length: usize,
        text: *mut u8,
        room: usize,
        length: *mut usize,
    ) -> u8;
}

const CERTIFICATE_MAX: usize = 909;
const TEXT_MAX: usize = 65_536;

/// One job, with its input.
enum Job {
    Check { record: Vec<u8> },
    Run { record: Vec<u8>, tolerance: u32, budget: u32 },
    Certificate { record: Vec<u8>, tolerance: u32 },
    Transcript { record: Vec<u8>, input: Vec<u8> },
}

/// What a job answers: its number, then figures or bytes.
#[derive(Debug, PartialEq)]
enum Answer {
    Number(u8),
    Figures(u8, Figures),
    Bytes(u8, Vec<u8>),
}

impl Job {
    fn by_library(&self) -> Answer {
        match self {
            Job::Check { record } => {
                // SAFETY: the pointer and the length are those of one slice.
                Answer::Number(unsafe { survey_check(record.as_ptr(), record.len(), 1) })
            }
            Job::Run { record, tolerance, budget } => {
                let mut figures = Figures::default();
                // SAFETY: as above; the figures are lent to this call alone.
                let number = unsafe {
                    survey_run(record.as_ptr(), record.len(), *tolerance, *budget, &mut figures)
                };
                Answer::Figures(number, figures)
            }
            Job::Certificate { record, tolerance } => {
                let mut buffer = vec![0; CERTIFICATE_MAX];
                let mut length = 0;
                // SAFETY: as above; the buffer has as many bytes as told.
                let number = unsafe {
                    survey_certificate(
                        record.as_ptr(),
                        record.len(),
                        *tolerance,
                        buffer.as_mut_ptr(),
                        buffer.len(),
                        &mut length,
                    )
                };
                buffer.truncate(length);
                Answer::Bytes(number, buffer)
            }
            Job::Transcript { record, input } => {
                let mut text = vec![0; TEXT_MAX];
                let mut length = 0;
                // SAFETY: as above.
                let number = unsafe {
                    survey_transcript(
                        record.as_ptr(),
                        record.len(),
                        input.as_ptr(),
                        input.len(),
                        text.as_mut_ptr(),
                        text.len(),
                        &mut length,
                    )
                };
                text.truncate(length);
                Answer::Bytes(number, text)
            }
        }
    }

    fn by_hand(&self) -> Answer {
        match self {
            Job::Check { record } => {
                Answer::Number(black_box(hand::check(record, 1)).map_or_else(|r| r.number, |()| 0))
            }
            Job::Run { record, tolerance, budget } => {
                match hand_run(record, *tolerance, *budget) {
                    Ok(figures) => Answer::Figures(0, figures),
                    Err(number) => Answer::Figures(number, Figures::default()),
                }
            }
            Job::Certificate { record, tolerance } => {
                let mut buffer = vec![0; CERTIFICATE_MAX];
                match hand_certificate(record, *tolerance, &mut buffer) {
                    Ok(length) => {
                        buffer.truncate(length);
                        Answer::Bytes(0, buffer)
                    }
                    Err(number) => Answer::Bytes(number, Vec::new()),
                }
            }
            Job::Transcript { record, input } => Answer::Bytes(0, hand::transcript(record, input)),
        }
    }
}

fn hand_survey(record: &[u8], tolerance: u32) -> Result<hand::Survey<'_>, u8> {
    hand::check(record, 1).map_err(|refused| refused.number)?;
    let mut survey = hand::Survey::open(record);
    survey.tol(tolerance)?;
    Ok(survey)
}

fn hand_run(record: &[u8], tolerance: u32, budget: u32) -> Result<Figures, u8> {
    let mut survey = hand_survey(record, tolerance)?;
    let (made, stop) = survey.run(budget);
    let mut figures = Figures { made, stop, ..Figures::default() };
    if let Some(seen) = survey.look() {
        figures.touches = survey.touches().len() as u16;
        figures.place = seen.floor.position();
        figures.floor = seen.floor.height();
        figures.ceiling = seen.ceiling;
    }
    Ok(figures)
}

fn hand_certificate(record: &[u8], tolerance: u32, buffer: &mut [u8]) -> Result<usize, u8> {
    let mut survey = hand_survey(record, tolerance)?;
    survey.run(256);
    survey.certificate(buffer)
}

/// Numbers that look like chance and are the same in each run.
struct Chance(u64);

impl Chance {
    fn below(&mut self, bound: u64) -> u64 {
        self.0 = self.0.wrapping_mul(6_364_136_223_846_793_005).wrapping_add(1_442_695_040_888_963_407);
        (self.0 >> 33) % bound
    }
}

/// The record of a sheet.
fn packed(slope: u32, slack: u32, heights: &[i32]) -> Vec<u8> {
    let mut record = Vec::new();
    let (mut held, mut count) = (0u64, 0);
    let mut put = |width: u32, value: u32| {
        held = held << width | u64::from(value);
        count += width;
        while count >= 8 {
            count -= 8;
            record.push((held >> count) as u8);
        }
    };
    put(12, heights.len() as u32 - 1);
    put(16, slope);
    put(16, slack);
    for height in heights {
        put(16, *height as u16 as u32);
    }
    put(4, 0);
    record
}

const SLOPE: u32 = 12;
const SLACK: u32 = 30;

/// Rolled glass: a walk by steps within the slope, and noise within the slack.
fn rolled(chance: &mut Chance, last: usize) -> Vec<i32> {
    let mut height = 0;
    (0..=last)
        .map(|_| {
            height = (height + chance.below(21) as i32 - 10).clamp(-15_000, 15_000);
            height + chance.below(SLACK as u64 / 2) as i32
        })
        .collect()
}

fn record(last: usize) -> Vec<u8> {
    packed(SLOPE, SLACK, &rolled(&mut Chance(last as u64), last))
}

/// Commands of every kind, and lines that are none, up to so many bytes.
fn commands(bytes: usize) -> Vec<u8> {
    let mut chance = Chance(7);
    let mut text = b"tol 60\n".to_vec();
    loop {
        let line = match chance.below(8) {
            0 | 1 => "high\n".to_string(),
            2 => "left\n".to_string(),
            3 => "ask\n".to_string(),
            4 => format!("at {}\n", chance.below(4_200)),
            5 => format!("run {}\n", chance.below(4)),
            6 => format!("tol {}\n", chance.below(200)),
            _ => "?? no command\n".to_string(),
        };
        if text.len() + line.len() > bytes {
            text.resize(bytes, b'\n');
            return text;
        }
        text.extend_from_slice(line.as_bytes());
    }
}

/// A job by its name: `check`, `run-LAST-BUDGET`, `flat-LAST-BUDGET`, `certificate`, `transcript`.
fn job(name: &str) -> Job {
    let words: Vec<&str> = name.split('-').collect();
    match words[..] {
        ["check"] => Job::Check { record: record(4_000) },
        ["run", last, budget] => Job::Run {
            record: record(last.parse().expect("a last position")),
            tolerance: 0,
            budget: budget.parse().expect("a budget"),
        },
        // Flat glass: the slack keeps it from being settled while a position is untouched.
        ["flat", last, budget] => Job::Run {
            record: packed(SLOPE, SLACK, &vec![0; last.parse::<usize>().expect("a last position") + 1]),
            tolerance: 0,
            budget: budget.parse().expect("a budget"),
        },
        // At this tolerance every sheet of the slope and slack settles within 256 touches.
        ["certificate"] => Job::Certificate { record: record(4_000), tolerance: 210 },
        ["transcript"] => Job::Transcript { record: record(4_000), input: commands(4_096) },
        _ => panic!("no such job: {name}"),
    }
}

const JOBS: [&str; 4] = ["check", "run-4000-256", "certificate", "transcript"];

/// Sheets of many kinds, lawful and not, with all four jobs.
fn cases() -> Vec<Job> {
    let mut chance = Chance(1);
    let mut jobs: Vec<Job> = JOBS.iter().map(|name| job(name)).collect();
    for case in 0..400 {
        let last = 1 + chance.below(if case % 10 == 0 { 4_000 } else { 60 }) as usize;
        let mut heights = rolled(&mut chance, last);
        if case % 3 == 0 {
            let hole = chance.below(last as u64 + 1) as usize;
            heights[hole] = -32_768;
        }
        if case % 5 == 0 {
            let spot = chance.below(last as u64 + 1) as usize;
            heights[spot] = chance.below(65_536) as i32 - 32_768;
        }
        let slope = if case % 7 == 0 { chance.below(65_536) as u32 } else { SLOPE };
        let slack = if case % 11 == 0 { chance.below(65_536) as u32 } else { SLACK };
        let mut record = packed(slope, slack, &heights);
        if case % 13 == 0 {
            let spot = chance.below(record.len() as u64) as usize;
            record[spot] ^= 1 << chance.below(8);
        }
        if case % 17 == 0 {
            record.truncate(chance.below(record.len() as u64) as usize);
        }
        let tolerance = chance.below(if case % 19 == 0 { 50_000 } else { 400 }) as u32;
        let input = commands(chance.below(600) as usize + 8);
        jobs.push(Job::Check { record: record.clone() });
        jobs.push(Job::Run { record: record.clone(), tolerance, budget: chance.below(300) as u32 });
        jobs.push(Job::Certificate { record: record.clone(), tolerance });
        jobs.push(Job::Transcript { record, input });
    }
    jobs
}

fn compare() {
    let jobs = cases();
    for (case, job) in jobs.iter().enumerate() {
        assert_eq!(job.by_library(), job.by_hand(), "case {case}");
    }
    println!("{} answers compared, all the same", jobs.len());
}

fn seconds(times: u32, work: impl Fn() -> Answer) -> f64 {
    let start = Instant::now();
    for _ in 0..times {
        black_box(work());
    }
    start.elapsed().as_secs_f64()
}

/// The library's time over the hand-written program's: the median of rounds that alternate.
fn time() {
    for name in JOBS {
        let job = job(name);
        let times = (0.02 / seconds(1, || job.by_hand()).max(1e-7)).ceil() as u32;
        let mut ratios: Vec<f64> = (0..15)
            .map(|_| {
                let hand = seconds(times, || job.by_hand());
                seconds(times, || job.by_library()) / hand
            })
            .collect();
        ratios.sort_by(f64::total_cmp);
        println!("{name}: time ratio {:.2}", ratios[ratios.len() / 2]);
    }
}

fn repeat(who: &str, name: &str, times: u32) {
    let job = job(name);
    for _ in 0..times {
        black_box(if who == "library" { job.by_library() } else { job.by_hand() });
    }
}

fn main() {
    let words: Vec<String> = std::env::args().skip(1).collect();
    match words.iter().map(String::as_str).collect::<Vec<_>>()[..] {
        ["compare"] => compare(),
        ["time"] => time(),
        ["repeat", who, name, times] => repeat(who, name, times.parse().expect("a count")),
        _ => panic!("usage: bench compare | time | repeat library|hand JOB TIMES"),
    }
}
