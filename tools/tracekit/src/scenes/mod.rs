//! The scenes of random traces: each leans to one corner of document 01.

mod filling;
mod mixed;
mod output;
mod timing;
mod typing;

use crate::typist::Typist;
use filling::{fill_line_and_output, fill_the_line, fill_the_output, fill_the_places};
pub use mixed::hang_up;
use mixed::{
    any_record, damaged_records, job_control, local_hangup, pair_of_flags, refused_settings,
};
use output::{column_across_settings, flow_control, output_processing, wide_column};
use timing::timed_read;
use typing::{
    edit_a_line, end_of_file_marks, erase_words, literal_next, marked_bytes, quiet_lines,
    switch_in_mid_line,
};

type Scene = fn(&mut Typist);

/// Each scene with its weight.
const SCENES: [(u64, Scene); 21] = [
    (8, edit_a_line),
    (4, erase_words),
    (8, timed_read),
    (4, fill_the_line),
    (2, fill_the_places),
    (4, fill_the_output),
    (2, fill_line_and_output),
    (5, job_control),
    (6, marked_bytes),
    (4, literal_next),
    (6, switch_in_mid_line),
    (4, flow_control),
    (2, quiet_lines),
    (6, output_processing),
    (3, column_across_settings),
    (5, end_of_file_marks),
    (6, pair_of_flags),
    (2, refused_settings),
    (4, damaged_records),
    (10, any_record),
    (1, wide_column_or_local_hangup),
];

/// Plays one scene, chosen by weight.
pub fn play_one(typist: &mut Typist) {
    let all = SCENES.iter().map(|scene| scene.0).sum();
    let mut chosen = typist.rng.below(all);
    for (weight, scene) in SCENES {
        if chosen < weight {
            return scene(typist);
        }
        chosen -= weight;
    }
}

/// The seldom ones: columns about 65,535, or a hangup that CLOCAL keeps away.
fn wide_column_or_local_hangup(t: &mut Typist) {
    if t.rng.chance(1, 2) {
        wide_column(t);
    } else {
        local_hangup(t);
    }
}

/// Ends the line, looks at the echo and reads.
fn show_line(t: &mut Typist) {
    t.end_line();
    t.look();
    t.take();
    if t.rng.chance(1, 2) {
        t.poll();
    }
}

fn word(t: &mut Typist) {
    for _ in 0..t.rng.between(1, 4) {
        let letter = t.rng.pick(*b"abcdeXY_");
        t.good(letter);
    }
}

fn plain_byte(t: &mut Typist) {
    let byte = t.rng.pick(*b"abcdefgh");
    t.good(byte);
}
