//! The stations of document 002: the figures, the cases made of them, and
//! faults that these must show.

use crate::faulty::{Fault, Faulty};
use crate::faulty_buddies::BuddyFault;
use crate::faulty_rules::RuleFault;
use crate::faulty_screens::{FaultyScreen, OF_ANSWERS};
use crate::faulty_weights::WeightFault;
use crate::faulty_winds::WindFault;
use second::call::Refusal;
use second::compare::{Case, Own};
use second::field::Shape;
use second::real::{stations, Cases, Station, DATA};
use second::scheme::analyse;
use second::survey::{compare_real, compare_real_texts};
use second::text::answer;
use second::units::HUNDREDTHS;

const GRID: Shape = Shape { nx: 21, ny: 27 };
const GAIN: &str = "points that gain support over a run in hundredths";
const ALONE: &str = "points that rule 1 leaves otherwise";
const CHECK: &str = "set aside by a check of";
const COMPANY: &str = "points that no check leaves otherwise";
const MOVED: &str = "points that mode 0 leaves otherwise";

fn cases() -> Cases {
    stations(DATA).and_then(|stations| Cases::new(&stations)).expect("as they should be")
}

#[test]
fn the_figures_are_those_of_the_document() {
    let stations = stations(DATA).expect("in form");
    let on_grid = |stations: &[Station]| {
        stations.iter().filter(|station| GRID.holds(station.x, station.y)).count()
    };
    assert_eq!((stations.len(), on_grid(&stations)), (536, 333));
    assert_eq!(on_grid(&stations[..512]), 317);
    let within = |station: &&Station| GRID.holds_within(station.x, station.y, 256);
    assert_eq!(stations.iter().filter(within).count(), 333 + 96);
    assert_eq!(stations[..512].iter().filter(within).count(), 317 + 88);
    assert_eq!(stations[0], Station { x: -505, y: -224, value: 146_752 });
}

#[test]
fn a_file_with_a_fault_is_said_in_one_line() {
    let told = |data: &str, told: &str| {
        let said = stations(data).expect_err(data);
        let mend = "fetch the file again with git checkout data";
        assert_eq!(said, format!("data/stations-002.csv, line {told}; {mend}"));
    };
    told("", "1, is not \"station,x,y,value\"");
    told("station,x,y\n1,2,3\n", "1, is not \"station,x,y,value\"");
    told("station,x,y,value\n1,2,3,4\n2,2,3\n", "3, is not station 2: \"2,2,3\"");
    told("station,x,y,value\n1,2,3,4\n3,2,3,4\n", "3, is not station 2: \"3,2,3,4\"");
    told("station,x,y,value\n1,2,x,4\n", "2, is not station 1: \"1,2,x,4\"");
    let few: String = DATA.lines().take(300).map(|line| line.to_string() + "\n").collect();
    let said = compare_real(&Own, &few, &mut Vec::new());
    assert!(
        said.is_err_and(|said| said.contains("real analysis of document 002's stations, floor"))
    );
}

#[test]
fn limits_that_reject_too_many_are_said() {
    let wild: Vec<Station> =
        (0..512).map(|row| Station { x: row, y: row, value: 1_000_000 }).collect();
    let said = Cases::new(&wild).err().expect("all are rejected");
    let opening = "limits [500000, 500000, 500000, 500000], smoothing off: 512 of 512 rejected";
    let posts = "0 of the 512 are posts";
    let close = "none were to be rejected: choose other limits in real.rs";
    assert_eq!(said, format!("{opening}; {posts}; {GAIN}: 0; {close}"));
}

#[test]
fn all_rows_are_too_many() {
    let cases = cases();
    let refused = Refusal::new(4, 0);
    let last = cases.analyses.last().expect("some");
    assert_eq!((last.0.x.len(), last.expected().err()), (536, Some(refused)));
    let last = cases.windows.last().expect("some");
    assert_eq!((last.call.x.len(), last.expected().err()), (536, Some(refused)));
    let screens = &cases.screens[cases.screens.len() - 2..];
    let windows = [0, 1].map(|last| screens[last].screen.left.len());
    assert_eq!(windows, [0, 16]);
    assert!(screens.iter().all(|case| case.expected().err() == Some(refused)));
    let last = cases.texts.last().expect("some").text.clone();
    let line = last.split(|byte| *byte == b'\n').position(|line| line == b"stations=536");
    assert_eq!(line, Some(36), "counted from 0");
    assert_eq!(answer(&last), b"refusal=9\nplace=37\n");
}

#[test]
fn texts_hold_as_many_rows_as_a_request_may_have() {
    let cases = cases();
    for (text, analysis) in cases.texts.iter().zip(&cases.analyses).take(6) {
        assert!((16_000..=65_536 / 3).contains(&text.text.len()));
        let (call, _) = text.expected().expect("accepted");
        assert_eq!((call.x.len(), &call), (512, &analysis.0));
    }
}

#[test]
fn the_cases_are_counted() {
    let mut out = Vec::new();
    assert_eq!(compare_real(&Own, DATA, &mut out), Ok(()));
    assert_eq!(compare_real_texts(&Own, DATA, &mut out), Ok(()));
    let out = String::from_utf8(out).expect("plain");
    for said in [
        "536 stations of document 002\n  limits [500000, 500000, 500000, 500000], smoothing off: 0 of",
        &format!("smoothing off: 96 of 405 rejected; 88 of the 405 are posts; {GAIN}: 1\n"),
        &format!("smoothing off: 322 of 405 rejected; 88 of the 405 are posts; {GAIN}: 10\n"),
        &format!("smoothing on: 330 of 405 rejected; 88 of the 405 are posts; {GAIN}: 8\n"),
        &format!("322 of 405 rejected; 88 of the 405 are posts; {GAIN}: 10; {ALONE}: 122\n"),
        &format!("{GAIN}: 0; {MOVED}: 550; {ALONE}: 327\n"),
        &format!("327 of 405 rejected; 88 of the 405 are posts; {GAIN}: 1; {MOVED}: 516\n"),
        &format!("{CHECK} 512,100000: 56; {COMPANY}: 565\n"),
        &format!("{CHECK} 64,20000: 46; {COMPANY}: 567\n"),
        &format!("82 of 405 rejected; 88 of the 405 are posts; {GAIN}: 1; {CHECK} 100,30000: 36; "),
        &format!("{CHECK} 257,60000: 18; {COMPANY}: 567\n"),
        &format!("200 of 405 rejected; 88 of the 405 are posts; {GAIN}: 6; {CHECK} 160,4000: 176; "),
        &format!("{ALONE}: 361; {CHECK} 320,10000: 129; {COMPANY}: 549\n"),
        "\nreal analysis, 37 cases\n",
        "\nreal window, 1225 cases\n",
        "\nreal windows, 362 cases\n",
        "\nreal reading, 3072 cases\n",
        "\nreal summary, 6 cases\n",
        "\nreal text, 19 cases\n",
    ] {
        assert!(out.contains(said), "{said} is not in {out}");
    }
}

#[test]
fn faults_are_seen_in_the_real_stations() {
    let cases = cases();
    for fault in [
        Fault::HalvesTowardZero,
        Fault::TakenBack,
        Fault::FedBySameScan,
        Fault::SupportOffByOneBit,
        Fault::VerdictOffByOne,
        Fault::SmoothsBorder,
        Fault::WritesBeforeRefusal,
        Fault::NoPosts,
        Fault::BorderIsRound,
        Fault::FieldForPosts,
        Fault::FirstGuessForAll,
        Fault::DistanceFromPlace,
        Fault::Weights(WeightFault::Scale(HUNDREDTHS)),
        Fault::Weights(WeightFault::Rounded),
        Fault::Weights(WeightFault::SupportOfHundredths),
        Fault::Winds(WindFault::RowBefore),
        Fault::Winds(WindFault::Exchanged),
        Fault::Winds(WindFault::Across),
        Fault::Winds(WindFault::NoSquare),
        Fault::Winds(WindFault::GatedByTheEffective),
        Fault::Winds(WindFault::CutTwice),
        Fault::Winds(WindFault::MarkIsANumber),
        Fault::Winds(WindFault::CalmIsSilent),
        Fault::Winds(WindFault::StretchedInTheSumOnly),
        Fault::Rules(RuleFault::Ignored),
        Fault::Rules(RuleFault::Always),
        Fault::Rules(RuleFault::ScaleForTwo),
        Fault::Rules(RuleFault::RejectedCounted),
        Fault::Buddies(BuddyFault::Ignored),
        Fault::Buddies(BuddyFault::OneIsEnough),
        Fault::Buddies(BuddyFault::ThreeAreNeeded),
        Fault::Buddies(BuddyFault::ItselfANeighbour),
        Fault::Buddies(BuddyFault::LimitOnce),
        Fault::Buddies(BuddyFault::ByNearestPlaces),
        Fault::Buddies(BuddyFault::RejectedBefore),
        Fault::Buddies(BuddyFault::SetAsideBefore),
        Fault::Buddies(BuddyFault::InTurn),
        Fault::Buddies(BuddyFault::ForThisScanAlone),
        Fault::Buddies(BuddyFault::StillWeighs),
    ] {
        let seen = cases.analyses.iter().any(|case| case.differs(&Faulty(fault)).is_some());
        assert!(seen, "{fault:?} was not seen");
    }
    for fault in [
        Fault::WidenedByLargestOnly,
        Fault::PostsLeaveTheCut,
        Fault::PostsOfTheWindowOnly,
        Fault::Winds(WindFault::CutWithTheFirstWinds),
    ] {
        let seen = cases.windows.iter().any(|case| case.differs(&Faulty(fault)).is_some());
        assert!(seen, "{fault:?} was not seen");
    }
    for fault in OF_ANSWERS {
        let seen = cases.screens.iter().any(|case| case.differs(&FaultyScreen(fault)).is_some());
        assert!(seen, "{fault:?} was not seen");
    }
    assert!(analyse(&cases.analyses[0].0).is_ok_and(|analysis| analysis.verdict.contains(&5)));
}
