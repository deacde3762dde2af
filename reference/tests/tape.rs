//! The tape reader and the tape writer.

use reference::calls::Answer;
use reference::tape::{quotes, read, write, Instruction};

/// One of each instruction with its words; a roll's prices are 1 to 16, its accrued amounts 17 to 32.
fn examples() -> Vec<(Instruction, Vec<u32>)> {
    let mut roll = vec![0x7c9c_4000];
    roll.extend((1..=32).map(|quote| 0x9000_0000 | quote));
    vec![
        (Instruction::Trade { issue: 0, from: 1, to: 2, lots: 3 }, vec![0x1004_2000, 0x8000_0003]),
        (
            Instruction::Trade { issue: 15, from: 63, to: 62, lots: 0xfff_ffff },
            vec![0x1fff_e000, 0x8fff_ffff],
        ),
        (Instruction::Deliver { issue: 2, account: 5, lots: 0 }, vec![0x2214_0000, 0x8000_0000]),
        (Instruction::Resolve { issue: 3, account: 63, lots: 1 }, vec![0x33fc_0000, 0x8000_0001]),
        (Instruction::PairOff { issue: 4, account: 1 }, vec![0x4404_0000]),
        (Instruction::Close, vec![0x5000_0000]),
        (Instruction::Cutoff, vec![0x6000_0000]),
        (Instruction::Roll { days: 12, rate: 10_000 }, roll),
        (Instruction::Mark { issue: 0, mark: 0 }, vec![0xd000_0000]),
        (Instruction::Mark { issue: 5, mark: 1 }, vec![0xd500_0001]),
        (Instruction::Mark { issue: 15, mark: 1 }, vec![0xdf00_0001]),
        (Instruction::Turn { day: 0 }, vec![0xe000_0000]),
        (Instruction::Turn { day: 65_535 }, vec![0xe000_ffff]),
    ]
}

/// The quotes of the example roll.
fn example_quotes() -> Vec<u32> {
    (1..=32).collect()
}

#[test]
fn the_reader_takes_the_instruction_and_counts_its_words() {
    for (instruction, mut words) in examples() {
        let count = words.len();
        assert_eq!(read(&words), Ok((instruction, count)));
        for missing in 0..count {
            assert_eq!(read(&words[..missing]), Err(13));
        }
        words.push(0);
        assert_eq!(read(&words), Ok((instruction, count)));
    }
    let (_, roll) = examples().remove(7);
    assert_eq!(quotes(&roll), example_quotes());
}

#[test]
fn a_head_of_another_kind_is_wrong() {
    for kind in [0, 8, 9, 10, 11, 12, 15] {
        assert_eq!(read(&[kind << 28]), Err(14));
        assert_eq!(read(&[kind << 28, 0x8000_0001]), Err(14));
    }
}

#[test]
fn each_unused_bit_of_a_head_is_asked() {
    for (instruction, words) in examples() {
        let used = match instruction {
            Instruction::Trade { .. } => 0xffff_f000,
            Instruction::Close | Instruction::Cutoff => 0xf000_0000,
            Instruction::Roll { .. } => 0xffff_fc00,
            Instruction::Mark { .. } => 0xff00_0001,
            Instruction::Turn { .. } => 0xf000_ffff,
            _ => 0xfffc_0000,
        };
        for bit in (0..32).map(|place| 1_u32 << place).filter(|bit| used & bit == 0) {
            assert_eq!(read(&[words[0] | bit]), Err(14));
        }
    }
}

#[test]
fn words_are_asked_one_by_one() {
    assert_eq!(read(&[]), Err(13));
    assert_eq!(read(&[0x1004_2000, 0x9000_0003]), Err(14));
    assert_eq!(read(&[0x1004_2000, 0x0000_0003]), Err(14));
    let (_, roll) = examples().remove(7);
    for at in 1..=32 {
        for wrong in [0x8000_0001, 0x9004_0001, 0x9800_0001, 0xa000_0001] {
            let mut words = roll.clone();
            words[at] = wrong;
            assert_eq!(read(&words), Err(14));
            assert_eq!(read(&words[..=at]), Err(14));
            assert_eq!(read(&words[..at]), Err(13));
        }
    }
}

#[test]
fn an_older_roll_of_17_words_is_refused() {
    let (_, roll) = examples().remove(7);
    assert_eq!(read(&roll[..17]), Err(13));
    for after in [0x5000_0000, 0x1004_2000, 0x7c9c_4000, 0] {
        assert_eq!(read(&[&roll[..17], &[after]].concat()), Err(14));
    }
}

#[test]
fn the_reader_passes_on_what_the_book_refuses() {
    let mut words = vec![0x7fff_fc00];
    words.extend([0x9003_ffff; 32]);
    assert_eq!(read(&words), Ok((Instruction::Roll { days: 15, rate: 16_383 }, 33)));
    assert_eq!(quotes(&words), [262_143; 32]);
    let trade = Instruction::Trade { issue: 0, from: 0, to: 0, lots: 0 };
    assert_eq!(read(&[0x1000_0000, 0x8000_0000]), Ok((trade, 2)));
}

#[test]
fn the_writer_writes_what_the_reader_reads() {
    for (instruction, words) in examples() {
        let mut output = [7; 34];
        let answer = write(&instruction, &example_quotes(), &mut output);
        assert_eq!(answer, Answer { number: 0, count: words.len() as u32 });
        assert_eq!(output[..words.len()], words);
        assert!(output[words.len()..].iter().all(|&word| word == 7));
        if words.len() < 33 {
            assert_eq!(write(&instruction, &[u32::MAX; 3], &mut output), answer);
        }
    }
}

/// The writer refuses by this number and leaves the output as it was.
fn refused(number: u32, instruction: Instruction, quotes: &[u32], words: usize) {
    let mut output = vec![7; words];
    assert_eq!(write(&instruction, quotes, &mut output), Answer { number, count: 0 });
    assert!(output.iter().all(|&word| word == 7));
}

#[test]
fn the_writer_asks_1_and_15() {
    refused(1, Instruction::Close, &[], 32);
    refused(1, Instruction::PairOff { issue: 16, account: 64 }, &[], 0);
    refused(15, Instruction::Trade { issue: 16, from: 0, to: 1, lots: 1 }, &[], 33);
    refused(15, Instruction::Trade { issue: 0, from: 64, to: 1, lots: 1 }, &[], 33);
    refused(15, Instruction::Trade { issue: 0, from: 0, to: 64, lots: 1 }, &[], 33);
    refused(15, Instruction::Trade { issue: 0, from: 0, to: 1, lots: 1 << 28 }, &[], 33);
    refused(15, Instruction::Deliver { issue: 0, account: 64, lots: 1 }, &[], 33);
    refused(15, Instruction::Resolve { issue: 16, account: 0, lots: 1 }, &[], 33);
    refused(15, Instruction::PairOff { issue: 0, account: u32::MAX }, &[], 33);
    refused(15, Instruction::Roll { days: 16, rate: 0 }, &[0; 32], 33);
    refused(15, Instruction::Roll { days: 0, rate: 16_384 }, &[0; 32], 33);
    refused(15, Instruction::Roll { days: 0, rate: 0 }, &[262_144; 32], 33);
    refused(15, Instruction::Roll { days: 0, rate: 0 }, &[0; 31], 33);
    refused(15, Instruction::Roll { days: 0, rate: 0 }, &[0; 33], 33);
    refused(1, Instruction::Mark { issue: 16, mark: 2 }, &[], 32);
    refused(15, Instruction::Mark { issue: 16, mark: 1 }, &[], 33);
    refused(15, Instruction::Mark { issue: 0, mark: 2 }, &[], 33);
    refused(15, Instruction::Mark { issue: 0, mark: u32::MAX }, &[], 33);
    refused(1, Instruction::Turn { day: 65_536 }, &[], 32);
    refused(15, Instruction::Turn { day: 65_536 }, &[], 33);
    refused(15, Instruction::Turn { day: u32::MAX }, &[], 33);
}
