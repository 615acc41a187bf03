//! Differences in sound.

use crate::hand::{format, heard, masked, play, sound, words, BYTES, COMPRESSED, WORDS};

/// 02, W5: steps are added in 16 bits with wrap-around. libavcodec clips the sum.
#[test]
fn wrap_around() {
    // 32767 and the steps 29973 (entry 136), 0 and 1; then -32768 and the step -1 (entry 255).
    let above = sound(4, &[0xFF, 0x7F, 136, 0, 1]);
    let below = sound(2, &[0x00, 0x80, 255]);
    let film = heard(format(1, COMPRESSED), &[&[above], &[format(1, COMPRESSED), below]]);
    let [ours, libav] = play(&film).ended().samples().map(words);
    assert_eq!(ours, [32767, -2796, -2796, -2795, -32768, 32767]);
    assert_eq!(libav, [32767, 32767, 32767, 32767, -32768, -32768]);
}

/// 02, W5: the first 08 alone has a start word for each channel; later ones go on from the last
/// samples. libavcodec takes the first bytes of every 08 as start words.
#[test]
fn start_words() {
    // Steps 1 and 2 behind the start word 10, then steps 5, 0 and 6.
    let packets = [sound(3, &[10, 0, 1, 2]), sound(3, &[5, 0, 6])];
    let film = heard(format(1, COMPRESSED), &[&packets[..1], &packets[1..]]);
    let [ours, libav] = play(&film).ended().samples().map(words);
    assert_eq!(ours, [10, 11, 13, 18, 18, 24]);
    assert_eq!(libav, [10, 11, 13, 5, 11]);
    // Stereo: left 10 and right 20, then steps 1 and 2; then 3, 0, 4, 0, 5 and 6.
    let packets = [sound(4, &[10, 0, 20, 0, 1, 2]), sound(6, &[3, 0, 4, 0, 5, 6])];
    let film = heard(format(1, COMPRESSED | 1), &[&packets[..1], &packets[1..]]);
    let [ours, libav] = play(&film).ended().samples().map(words);
    assert_eq!(ours, [10, 20, 11, 22, 14, 22, 18, 22, 23, 28]);
    assert_eq!(libav, [10, 20, 11, 22, 3, 4, 8, 10]);
}

/// 02, W5: packets whose mask lacks the stream's bit give nothing. libavformat reads no mask: it plays
/// the sound of all streams as one.
#[test]
fn masks() {
    let other = masked(0x08, 0b10, 2, &[1, 2]);
    let film = heard(format(0, BYTES), &[&[other], &[sound(2, &[3, 4])]]);
    let [ours, libav] = play(&film).ended().samples();
    assert_eq!(ours, [3, 4]);
    assert_eq!(libav, [1, 2, 3, 4]);
}

/// 02, W5: 09 gives its length in zero samples, 128 in 8-bit sound. libavformat passes over it.
#[test]
fn silence() {
    let silent = |count| masked(0x09, 1, count, &[]);
    let film = heard(format(0, BYTES), &[&[sound(1, &[1])], &[silent(2)], &[sound(1, &[2])]]);
    let [ours, libav] = play(&film).ended().samples();
    assert_eq!(ours, [1, 128, 128, 2]);
    assert_eq!(libav, [1, 2]);
    let film = heard(format(0, WORDS), &[&[sound(1, &[1, 0])], &[silent(1)]]);
    let [ours, libav] = play(&film).ended().samples();
    assert_eq!(ours, [1, 0, 0, 0]);
    assert_eq!(libav, [1, 0]);
}

/// 02, W5: every 08 of the stream gives its samples. libavformat hands on the last one of a chunk
/// alone.
#[test]
fn several_packets_in_a_chunk() {
    let film = heard(format(0, BYTES), &[&[sound(2, &[1, 2]), sound(2, &[3, 4])]]);
    let [ours, libav] = play(&film).ended().samples();
    assert_eq!(ours, [1, 2, 3, 4]);
    assert_eq!(libav, [3, 4]);
}

/// 02, W5: a later 03 starts afresh, whatever it says. libavcodec decodes all sound by the first one.
#[test]
fn another_format() {
    let bytes = [format(0, BYTES), sound(2, &[3, 4])];
    let played = play(&heard(format(0, WORDS), &[&[sound(1, &[1, 2])], &bytes])).ended();
    let kinds = |recordings: &[peer::played::Recording]| -> Vec<(usize, Vec<u8>)> {
        recordings.iter().map(|heard| (heard.sample_bytes, heard.samples.clone())).collect()
    };
    assert_eq!(kinds(&played.ours.played.sound), [(2, vec![1, 2]), (1, vec![3, 4])]);
    assert_eq!(kinds(&played.libav.played.sound), [(2, vec![1, 2, 3, 4])]);
}

/// 02, W5: an 08 may count no sample. libavcodec says of such a packet that it is wrong, and goes on.
#[test]
fn no_sample() {
    let played = play(&heard(format(0, BYTES), &[&[sound(0, &[])], &[sound(2, &[3, 4])]]));
    assert_eq!(played.ours.refusal, None);
    assert_eq!((played.libav.faults.len(), played.libav.error), (1, None));
    assert_eq!(played.samples(), [[3, 4]; 2]);
}
