//! Times of compressed sound, mono and stereo: a packet by one call of each program, every sample
//! compared.

use crate::measure::timed;
use crate::program::{LIBAV, MEMCPY, SECOND, STEP};
use crate::sound::STREAM;
use maker::film::{Chunk, Film, Opcode};
use maker::{sound, Seeded, Size};
use reference::film as second;
use std::hint::black_box;
use std::time::Duration;

/// Packets that are timed, each with the samples of a tenth of a second at 22,050 a second.
const PACKETS: usize = 16;
const SAMPLES: usize = 2205;

/// A program that decodes packets of sound.
trait Program {
    /// What the tables call it.
    fn name(&self) -> &'static str;

    /// Takes a packet, by its number: what is timed. Else why it is not taken.
    fn run(&mut self, number: usize) -> Result<(), String>;

    /// The samples of the last packet, as bytes.
    fn samples(&mut self) -> Vec<u8>;
}

/// Packets of one format, the programs, and their times up to now.
pub struct Hearing {
    seed: u64,
    /// One or two.
    pub channels: usize,
    /// The samples of each packet, by the second decoder.
    wanted: Vec<Vec<u8>>,
    programs: Vec<Box<dyn Program>>,
    /// The least time of each program on each packet.
    least: Vec<Vec<Duration>>,
}

impl Hearing {
    /// Mono and stereo.
    pub fn all(seed: u64) -> Result<Vec<Hearing>, String> {
        [1, 2].map(|channels| Hearing::new(channels, seed)).into_iter().collect()
    }

    fn new(channels: usize, seed: u64) -> Result<Hearing, String> {
        let packets = packets(&mut Seeded::new(seed), channels);
        let film = film(channels, &packets);
        let mut by_second = Second::new(film.clone());
        let wanted: Vec<_> = (0..PACKETS)
            .map(|number| by_second.run(number).map(|()| by_second.samples()))
            .collect::<Result<_, _>>()?;
        let mut programs: Vec<Box<dyn Program>> = vec![
            Box::new(Memcpy { samples: wanted.clone(), room: Vec::new() }),
            Box::new(Proved::new(film)),
        ];
        programs.extend(libav(channels, &packets));
        programs.push(Box::new(by_second));
        let least = vec![vec![Duration::MAX; PACKETS]; programs.len()];
        Ok(Hearing { seed, channels, wanted, programs, least })
    }

    /// Each program takes the packets once, one program after the other; another is the first in
    /// each round.
    pub fn round(&mut self, round: usize) -> Result<(), String> {
        let count = self.programs.len();
        for which in (0..count).map(|turn| (round + turn) % count) {
            let program = &mut self.programs[which];
            for (number, least) in self.least[which].iter_mut().enumerate() {
                let (taken, time) = timed(|| program.run(number));
                let Hearing { seed, channels, .. } = self;
                let packet = format!("seed {seed}, sound of {channels} channels, packet {number}");
                taken.map_err(|why| format!("{packet}, by {}: {why}", program.name()))?;
                *least = time.min(*least);
                let (samples, wanted) = (program.samples(), &self.wanted[number]);
                if let Some(sample) = first_difference(&samples, wanted) {
                    return Err(format!("{packet}: sample {sample} by {}", program.name()));
                }
            }
        }
        Ok(())
    }

    /// Samples of all packets, and nanoseconds a sample by program: the least time of each packet,
    /// their mean.
    pub fn measured(&self) -> Vec<(&'static str, f64)> {
        let time = |least: &Vec<Duration>| {
            let all = least.iter().sum::<Duration>();
            all.as_nanos() as f64 / (PACKETS * self.samples_a_packet()) as f64
        };
        let names = self.programs.iter().map(|program| program.name());
        names.zip(self.least.iter().map(time)).collect()
    }

    /// Samples of both channels.
    pub fn samples_a_packet(&self) -> usize {
        SAMPLES * self.channels
    }
}

/// Where two recordings differ first; `None` where they are the same, also in length.
fn first_difference(one: &[u8], other: &[u8]) -> Option<usize> {
    let differs = one.chunks(2).zip(other.chunks(2)).position(|(one, other)| one != other);
    differs.or_else(|| (one.len() != other.len()).then_some(one.len().min(other.len()) / 2))
}

/// Bodies of 08, each one a first packet by which no sum leaves 16 bits.
fn packets(rng: &mut Seeded, channels: usize) -> Vec<Vec<u8>> {
    let count = SAMPLES * channels;
    let front = [0, 1 << STREAM, count as u16].map(u16::to_le_bytes).concat();
    let packet = |_| [&front[..], &sound::without_wrap(rng, channels, count)].concat();
    (0..PACKETS).map(packet).collect()
}

/// A film with a 03 in front of each packet.
fn film(channels: usize, packets: &[Vec<u8>]) -> Vec<u8> {
    let flags = if channels == 2 { 0b111 } else { 0b110 };
    let format = [0, flags, 22_050, 0, 0].map(u16::to_le_bytes).concat();
    let chunk = |packet: &Vec<u8>| {
        let opcodes = [(0x03, 1, format.clone()), (0x08, 0, packet.clone())];
        let opcodes = opcodes.map(|(kind, version, body)| Opcode::new(kind, version, body));
        Chunk { opcodes: opcodes.into(), ..Chunk::default() }
    };
    let chunks = packets.iter().map(chunk).collect();
    Film { size: Size::new(1, 1), stream: STREAM, chunks, tail: Vec::new() }.bytes()
}

/// A copy of the samples.
struct Memcpy {
    samples: Vec<Vec<u8>>,
    room: Vec<u8>,
}

impl Program for Memcpy {
    fn name(&self) -> &'static str {
        MEMCPY
    }

    fn run(&mut self, number: usize) -> Result<(), String> {
        let samples = &self.samples[number];
        self.room.resize(samples.len(), 0);
        black_box(&mut self.room).copy_from_slice(black_box(samples));
        Ok(())
    }

    fn samples(&mut self) -> Vec<u8> {
        self.room.clone()
    }
}

/// The step of the proved library, from the state in front of each 08.
struct Proved {
    film: Vec<u8>,
    states: Vec<mve::State>,
    palette: [u8; 768],
    room: Vec<u8>,
    bytes: usize,
}

impl Proved {
    fn new(film: Vec<u8>) -> Proved {
        let room = vec![0; mve::ROOM_BYTES];
        let mut program = Proved { film, states: Vec::new(), palette: [0; 768], room, bytes: 0 };
        let mut state = mve::open(&program.film, STREAM).expect("a header");
        while let Ok(mve::Step::Taken { state: next, bytes, .. }) = program.step(state) {
            program.states.extend((bytes > 0).then_some(state));
            state = next;
        }
        program
    }

    fn step(&mut self, state: mve::State) -> Result<mve::Step, mve::Refusal> {
        let Proved { film, palette, room, .. } = self;
        mve::step(
            film,
            state,
            palette,
            &mut mve::Pictures::default(),
            &mut 0,
            room,
            0,
            mve::Form::Default,
        )
    }
}

impl Program for Proved {
    fn name(&self) -> &'static str {
        STEP
    }

    fn run(&mut self, number: usize) -> Result<(), String> {
        match self.step(self.states[number]) {
            Ok(mve::Step::Taken { bytes, .. }) => {
                self.bytes = bytes;
                Ok(())
            }
            other => Err(format!("{other:?}")),
        }
    }

    fn samples(&mut self) -> Vec<u8> {
        self.room[..self.bytes].to_vec()
    }
}

/// The step of the second decoder, from the state in front of each 08.
struct Second {
    film: Vec<u8>,
    states: Vec<second::State>,
    palette: [u8; 768],
    room: Vec<u8>,
    bytes: usize,
}

impl Second {
    fn new(film: Vec<u8>) -> Second {
        let room = vec![0; mve::ROOM_BYTES];
        let mut program = Second { film, states: Vec::new(), palette: [0; 768], room, bytes: 0 };
        let mut state = second::open(&program.film, STREAM).expect("a header");
        while let second::Stepped::Taken(next, _, bytes) = program.step(state) {
            program.states.extend((bytes > 0).then_some(state));
            state = next;
        }
        program
    }

    fn step(&mut self, state: second::State) -> second::Stepped {
        let Second { film, palette, room, .. } = self;
        let (picture_a, picture_b): (&mut [u8], &mut [u8]) = (&mut [], &mut []);
        let (place, words) = (&mut 0, [(); 3].map(|()| &mut [][..]));
        let lent = second::Lent { palette, picture_a, picture_b, place, room, words };
        second::step(film, state, lent, 0)
    }
}

impl Program for Second {
    fn name(&self) -> &'static str {
        SECOND
    }

    fn run(&mut self, number: usize) -> Result<(), String> {
        match self.step(self.states[number]) {
            second::Stepped::Taken(_, _, bytes) => {
                self.bytes = bytes;
                Ok(())
            }
            other => Err(format!("{other:?}")),
        }
    }

    fn samples(&mut self) -> Vec<u8> {
        self.room[..self.bytes].to_vec()
    }
}

/// No program: the bench was built without libavcodec.
#[cfg(not(libavcodec))]
fn libav(_channels: usize, _packets: &[Vec<u8>]) -> Option<Box<dyn Program>> {
    None
}

/// libavcodec's decoder; `None` where it was built without it.
#[cfg(libavcodec)]
fn libav(channels: usize, packets: &[Vec<u8>]) -> Option<Box<dyn Program>> {
    use crate::ffi::{Packet, SoundDecoder};

    struct Libav {
        decoder: SoundDecoder,
        packets: Vec<Packet>,
        room: Vec<i16>,
    }

    impl Program for Libav {
        fn name(&self) -> &'static str {
            LIBAV
        }

        fn run(&mut self, number: usize) -> Result<(), String> {
            let decoded = self.decoder.decode(&self.packets[number]);
            decoded.map_err(|error| format!("error {error}"))
        }

        fn samples(&mut self) -> Vec<u8> {
            let count = self.decoder.samples(&mut self.room).expect("16-bit samples");
            self.room[..count].iter().flat_map(|sample| sample.to_le_bytes()).collect()
        }
    }

    let decoder = SoundDecoder::open(channels)?;
    let packets = packets.iter().map(|packet| Packet::new(packet).expect("memory")).collect();
    Some(Box::new(Libav { decoder, packets, room: vec![0; 65_535] }))
}

#[cfg(test)]
mod tests {
    use super::*;

    /// All programs are there, and agree.
    #[test]
    fn same_samples() {
        for mut hearing in Hearing::all(3).expect("valid packets") {
            hearing.round(0).unwrap_or_else(|why| panic!("{why}"));
            assert_eq!(hearing.wanted[0].len(), 2 * SAMPLES * hearing.channels);
            let measured = hearing.measured();
            let names: Vec<_> = measured.iter().map(|&(name, _)| name).collect();
            let there = [MEMCPY, STEP, LIBAV, SECOND];
            let there = there.into_iter().filter(|&name| name != LIBAV || cfg!(libavcodec));
            assert_eq!(names, there.collect::<Vec<_>>());
            assert!(measured.iter().all(|&(_, time)| time > 0.0 && time < 1e6), "{measured:?}");
        }
    }

    /// The last of the programs, with one wrong bit.
    struct Wrong(Box<dyn Program>);

    impl Program for Wrong {
        fn name(&self) -> &'static str {
            "wrong"
        }

        fn run(&mut self, number: usize) -> Result<(), String> {
            self.0.run(number)
        }

        fn samples(&mut self) -> Vec<u8> {
            let mut samples = self.0.samples();
            samples[41] ^= 0x80;
            samples
        }
    }

    #[test]
    fn faults_are_found() {
        let mut hearing = Hearing::new(2, 7).expect("valid packets");
        let right = hearing.programs.pop().expect("programs");
        hearing.programs.push(Box::new(Wrong(right)));
        let fault = hearing.round(0).expect_err("a wrong sample");
        assert_eq!(fault, "seed 7, sound of 2 channels, packet 0: sample 20 by wrong");
        assert_eq!(first_difference(&[1, 2], &[1, 2, 3, 4]), Some(1));
    }
}
