//! The model's own tests of the text since P2: the three editions, the first line, the relations of eight schedules.

use crate::check::Cases;
use crate::edition::Edition::{self, First, Second, Third};
use crate::edition::{read, write, Own};
use crate::program::edition;
use crate::refusal::Refusal::{self, Range, Relation, Text};
use crate::settings::*;

pub fn cases() -> Cases {
    [lines(), first_lines(), faults(), keys(), relations(), orders(), written()].concat()
}

pub fn refused(text: &str) -> Option<Refusal> {
    read(text.as_bytes()).err()
}

/// The standard values in an edition.
pub fn standard(edition: Edition) -> String {
    edition.text(&Own::of(&Settings::standard()))
}

/// "71 lines", "149 lines", "148 lines": the line numbers of the editions, counted from 1.
fn lines() -> Cases {
    let has = |edition: Edition, count: usize, lines: &[(usize, &str)]| {
        let text = standard(edition);
        let found = |&(number, line): &(usize, &str)| text.lines().nth(number - 1) == Some(line);
        text.lines().count() == count && lines.iter().all(found)
    };
    let old = [(1, "orbit=3564"), (14, "warn_blocks=0"), (15, "ignore_disc=0"), (28, "slot7=0"), (29, "at_bc0=0")];
    let old_ends = [(39, "at_cal=3490"), (40, "part0=0"), (71, "part31=0")];
    let second = [(1, "edition=2"), (2, "orbit=3564"), (15, "warn_blocks=0"), (22, "slot0=255"), (29, "slot7=0")];
    let second_at = [(30, "at0_bc0=0"), (31, "at0_te=3400"), (40, "at0_cal=3490"), (41, "at1_bc0=0"), (117, "at7_cal=3490")];
    let third = [(1, "edition=3"), (2, "orbit=3564"), (14, "r4_low=2"), (15, "ignore_disc=0"), (28, "slot7=0")];
    let third_at = [(29, "at0_bc0=0"), (39, "at0_cal=3490"), (40, "at1_bc0=0"), (116, "at7_cal=3490"), (117, "part0=0")];
    vec![
        ("edition 1 has 71 lines", has(First, 71, &old) && has(First, 71, &old_ends)),
        ("edition 2 has 149 lines", has(Second, 149, &second) && has(Second, 149, &[(118, "part0=0"), (149, "part31=0")])),
        ("88 lines, controller by controller", has(Second, 149, &second_at)),
        (
            "edition 3 has 148 lines",
            has(Third, 148, &third) && has(Third, 148, &third_at) && has(Third, 148, &[(148, "part31=0")]),
        ),
        ("edition 3 is edition 2 without a line", {
            standard(Second).replace("edition=2\n", "edition=3\n").replace("warn_blocks=0\n", "") == standard(Third)
        }),
        ("all are read", [First, Second, Third].iter().all(|&edition| refused(&standard(edition)).is_none())),
    ]
}

/// "A first line that opens no known edition is TEXT, line 1", never RANGE.
fn first_lines() -> Cases {
    let opened = |line: &str| refused(&standard(Third).replacen("edition=3\n", line, 1));
    let all = |lines: &[&str]| lines.iter().all(|line| opened(line) == Some(Text(1)));
    let old = standard(First);
    vec![
        ("the empty text", refused("") == Some(Text(1))),
        ("edition=1", opened("edition=1\n") == Some(Text(1)) && refused(&format!("edition=1\n{old}")) == Some(Text(1))),
        ("edition=02", opened("edition=02\n") == Some(Text(1)) && opened("edition=03\n") == Some(Text(1))),
        ("edition=99999", opened("edition=99999\n") == Some(Text(1))),
        ("edition=2 without a newline", opened("edition=2") == Some(Text(1)) && refused("edition=2") == Some(Text(1))),
        ("edition=3 without a newline", opened("edition=3") == Some(Text(1)) && refused("edition=3") == Some(Text(1))),
        ("later editions", all(&["edition=4\n", "edition=5\n", "edition=22\n", "edition=33\n"])),
        (
            "other first lines",
            all(&["\n", " edition=3\n", "edition=3 \n", "edition=3\r\n", "edition=\n", "Edition=3\n", "edition=+3\n"]),
        ),
        ("the first line alone", [refused("edition=2\n"), refused("edition=3\n")] == [Some(Text(2)); 2]),
        ("the first line twice", [opened("edition=3\nedition=3\n"), opened("edition=2\nedition=3\n")] == [Some(Text(2)); 2]),
        ("orbit= is edition 1, whatever follows", refused("orbit=x") == Some(Text(1)) && refused("orbit=63\n") == Some(Range(1))),
        ("orbit= and the lines of edition 2", refused(&standard(Second).replace("edition=2\n", "")) == Some(Text(29))),
        ("orbit= and the lines of edition 3", opened("") == Some(Text(14))),
        ("orbit without =", refused("orbit") == Some(Text(1))),
        ("edition 2 and the lines of edition 1", refused(&format!("edition=2\n{old}")) == Some(Text(30))),
        ("edition 2 and the lines of edition 3", opened("edition=2\n") == Some(Text(15))),
        ("edition 3 and the lines of edition 1", refused(&format!("edition=3\n{old}")) == Some(Text(15))),
    ]
}

/// The refusals of the editions' standard texts, in each the one piece replaced by the other.
fn replaced(from: &str, to: &str) -> [Option<Refusal>; 3] {
    [First, Second, Third].map(|edition| refused(&standard(edition).replace(from, to)))
}

/// The line numbers that TEXT and RANGE carry are those of the text's own edition.
fn faults() -> Cases {
    let ranges = |lines: [usize; 3]| lines.map(|line| Some(Range(line)));
    let tails = [First, Second, Third].map(|edition| refused(&(standard(edition) + "\n")));
    vec![
        ("the tail", tails == [Some(Text(72)), Some(Text(150)), Some(Text(149))]),
        ("no last newline", replaced("part31=0\n", "part31=0") == [Some(Text(71)), Some(Text(149)), Some(Text(148))]),
        ("orbit outside its range", replaced("3564\n", "63\n") == ranges([1, 2, 2])),
        ("r2_period 64", replaced("r2_period=25", "r2_period=64") == ranges([5, 6, 6])),
        ("r4_low 512", replaced("r4_low=2", "r4_low=512") == ranges([13, 14, 14])),
        ("ignore_disc 2", replaced("ignore_disc=0", "ignore_disc=2") == ranges([15, 16, 15])),
        ("at_cal 4096", replaced("_cal=3490", "_cal=4096") == ranges([39, 40, 39])),
        ("at7_cal 4096", replaced("at7_cal=3490", "at7_cal=4096") == [None, Some(Range(117)), Some(Range(116))]),
        ("at1_bc0 4096", replaced("at1_bc0=0", "at1_bc0=4096") == [None, Some(Range(41)), Some(Range(40))]),
        ("part31 9", replaced("part31=0", "part31=9") == ranges([71, 149, 148])),
    ]
}

fn keys() -> Cases {
    let later = |second: usize| [None, Some(Text(second)), Some(Text(second - 1))];
    vec![
        ("at3_te ill-formed", replaced("at3_te=3400", "at3_te=03400") == later(64)),
        ("a key of edition 1 in a later one", replaced("at3_te=", "at_te=") == later(64)),
        ("a key of edition 2 in edition 1", replaced("at_te=", "at0_te=") == [Some(Text(30)), None, None]),
        ("another controller's key", replaced("at2_hard=", "at3_hard=") == later(55)),
        ("a controller 8", replaced("at7_cal=3490\n", "at7_cal=3490\nat8_bc0=0\n") == later(118)),
        ("a missing schedule line", replaced("at7_cal=3490\n", "") == later(117)),
    ]
}

/// The standard settings with numbers changed: controller, place, number.
fn at(changes: &[(usize, usize, usize)]) -> Settings {
    let mut settings = Settings::standard();
    changes.iter().for_each(|&(n, place, number)| settings.at[n][place] = number);
    settings
}

/// Whether the values are refused for that relation at that controller, in editions 2 and 3 alike.
fn fails(settings: &Settings, relation: usize, n: usize) -> bool {
    [Second, Third].map(|edition| refused(&edition.text(&Own::of(settings)))) == [Some(Relation(relation, n)); 2]
}

/// "RELATION also carries the controller, 0 for relations 1 and 5."
fn relations() -> Cases {
    let shared = |place: usize, value: usize, changes: &[(usize, usize, usize)]| {
        let mut settings = at(changes);
        settings[place] = value;
        settings
    };
    let (low, te) = (R2_PERIOD + 2, [(3, AT_TE, 3491)]);
    let old = |from: &str, to: &str| refused(&standard(First).replace(from, to));
    vec![
        ("relation 1 carries controller 0", fails(&shared(GAP_HIGH, 3564, &te), 1, 0)),
        ("relation 2 at 5", fails(&at(&[(5, AT_CAL, 3564)]), 2, 5)),
        ("relation 3 at 7", fails(&at(&[(7, AT_BC0, 3444)]), 3, 7)),
        ("relation 4 at 1", fails(&at(&[(1, AT_WTE, 3401)]), 4, 1)),
        ("at_wte is not at_te", fails(&at(&[(2, AT_WTE, 3400)]), 3, 2)),
        ("relation 5 carries controller 0", fails(&shared(low, 3, &[]), 5, 0)),
        ("relation 4 before 5", fails(&shared(low, 3, &te), 4, 3)),
        ("a controller without a slot", fails(&shared(SLOT0 + 3, 0, &te), 4, 3)),
        ("edition 1: 2 at 0", old("at_stop=600", "at_stop=3564") == Some(Relation(2, 0))),
        ("edition 1: 3 at 0", old("at_stop=600", "at_stop=500") == Some(Relation(3, 0))),
        (
            "numbers of two controllers may be equal",
            refused(&write(&at(&[(1, AT_BC0, 7), (2, AT_GAP, 7), (3, AT_CAL, 3450)]))).is_none(),
        ),
    ]
}

/// "Relations keep their order, 2 to 4 each for controllers 0 to 7 in turn."
fn orders() -> Cases {
    let fails = |changes: &[(usize, usize, usize)], relation: usize, n: usize| fails(&at(changes), relation, n);
    vec![
        ("3 at 1 and 2 at 5", fails(&[(1, AT_BC0, 100), (5, AT_OC0, 4095)], 2, 5)),
        ("4 at 0 and 3 at 7", fails(&[(0, AT_TE, 2999), (7, AT_HARD, 300)], 3, 7)),
        ("4 at 2 and 2 at 6", fails(&[(2, AT_TE, 2999), (6, AT_GAP, 3564)], 2, 6)),
        ("2 at 6 and 2 at 4", fails(&[(6, AT_GAP, 3564), (4, AT_GAP, 3564)], 2, 4)),
        ("3 at 7 and 3 at 3", fails(&[(7, AT_EC0, 0), (3, AT_EC0, 0)], 3, 3)),
        ("4 at 5 and 4 at 2", fails(&[(5, AT_CAL, 3399), (2, AT_CAL, 3399)], 4, 2)),
        ("the tail before relations", refused(&(write(&at(&[(5, AT_CAL, 3564)])) + "x")) == Some(Text(149))),
    ]
}

/// "Written text is edition 3"; `desk_edition` prints it.
fn written() -> Cases {
    let different = at(&[(1, AT_CAL, 3500), (2, AT_BC0, 1), (7, AT_STOP, 601)]);
    let again = read(write(&different).as_bytes());
    let second = Second.text(&Own::of(&different));
    let old = standard(First).replace("at_cal=3490", "at_cal=3555").replace("orbit=3564", "orbit=3600");
    let mut values = at(&[]);
    (values[ORBIT], values.at) = (3600, [at(&[(0, AT_CAL, 3555)]).at[0]; 8]);
    let new = edition(old.as_bytes());
    vec![
        ("what is written is edition 3", write(&different) == Third.text(&Own::of(&different))),
        ("what is written is read as the same values", again.is_ok_and(|again| again == different)),
        ("edition 3 is written back byte for byte", edition(write(&different).as_bytes()) == write(&different)),
        ("edition 2 is written as edition 3", edition(second.as_bytes()) == write(&different)),
        ("edition 1 gives its schedule to all eight", read(old.as_bytes()).is_ok_and(|read| read == values)),
        ("edition 1 is written as edition 3", new == write(&values) && new.matches("_cal=3555\n").count() == 8),
        ("a refused text", edition(b"") == "refused=1\n" && edition(b"orbit=63\n") == "refused=2\n"),
        ("a refused relation", edition(write(&at(&[(6, AT_BC0, 100)])).as_bytes()) == "refused=3\n"),
    ]
}
