//! The staff board beside what it stands for: a single question for each of 64 users and each
//! permission, refused where there is no such user.

use std::hint::black_box;

use comparison::ffi;

use crate::in_words;
use crate::inputs::Input;
use crate::timing::{quickest, time};

/// With more rows or derived roles than this the questions take seconds: each reads the table anew.
const LIMIT: usize = 50_000;
const ROUNDS: usize = 5;

pub fn print_beside_questions(inputs: &[Input]) {
    println!("\n| input | board | 64 × P | as many questions | in boards |\n|---|---|---|---|---|");
    for input in inputs.iter().filter(|input| input.rows.max(input.derived) <= LIMIT) {
        let (table, minute) = (&input.table[..], |i| input.question(i).minute);
        let board = |i| ffi::table::board(black_box(table), minute(i));
        let questions = |i| {
            for user in 0..64 {
                for permission in 0..input.permissions {
                    black_box(ffi::table::question(black_box(table), user, permission, minute(i)));
                }
            }
        };
        let (board, questions) = (time(board, board).proved, quickest(ROUNDS, questions));
        println!(
            "| {} | {} | {} | {} | {:.0} |",
            input.name,
            in_words(board),
            64 * input.permissions,
            in_words(questions),
            questions / board
        );
    }
}
