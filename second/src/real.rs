//! The stations of source document 002 as requests: real positions and values,
//! on that document's grid, under limits that reject none, some and most of
//! them; once with the round weight and once along winds, which are made up; each
//! under both rules; and with a buddy check, under several B and L.

use crate::call::{Analysis, Buddy, Call, Query, Screen, Window, Winds};
use crate::cases::{AnalysisCase, ReadingCase, SummaryCase, TextCase, WindowCase};
use crate::post_sorts::is_post;
use crate::scheme::{run, run_in};
use crate::screen::points;
use crate::screen_case::ScreenCase;
use crate::units::{
    ALONG_WIND, DEFAULT_AGE, EQUATIONS, HUNDREDTHS, LISTINGS, MISSING, MOST_STATIONS, MOST_WINDOWS,
    NO_END, ROUND,
};
use crate::verdicts::{REJECTED, SET_ASIDE};
use crate::write::{written_out, Style};
use std::ops::Range;

/// What `data/README.md` describes.
pub const DATA: &str = include_str!("../../data/stations-002.csv");
const HEAD: &str = "station,x,y,value";

/// The grid of document 002.
const NX: u32 = 21;
const NY: u32 = 27;
/// 850 units, near the middle value of the stations on the grid.
const FIRST_GUESS: i32 = 850 * 64;
const RADII: [i32; 4] = [384, 320, 256, 160];
/// Of the one scan of some screens.
const SHORT: i32 = 100;
/// Every station is observed in the minute of the analysis.
const MINUTE: u32 = 1000;
/// Columns and rows of the windows that are asked for.
const WINDOWS: [(u32, u32); 6] = [(1, 1), (4, 3), (11, 14), (NX, 1), (1, NY), (NX, NY)];

#[derive(Clone, Copy, Debug, PartialEq, Eq)]
pub struct Station {
    pub x: i32,
    pub y: i32,
    pub value: i32,
}

/// The stations of a data file, which numbers them from 1 on.
pub fn stations(data: &str) -> Result<Vec<Station>, String> {
    let wrong = |line: usize, what: &str| {
        let mend = "fetch the file again with git checkout data";
        format!("data/stations-002.csv, line {line}, {what}; {mend}")
    };
    let mut lines = data.lines();
    if lines.next() != Some(HEAD) {
        return Err(wrong(1, &format!("is not {HEAD:?}")));
    }
    let numbered = (1..).zip(lines);
    let stations = numbered.map(|(number, line)| {
        let station = station(number, line);
        station.ok_or_else(|| wrong(number + 1, &format!("is not station {number}: {line:?}")))
    });
    stations.collect()
}

fn station(number: usize, line: &str) -> Option<Station> {
    let fields = line.split(',').map(|field| field.parse().ok()).collect::<Option<Vec<i32>>>()?;
    match fields[..] {
        [first, x, y, value] if first as usize == number => Some(Station { x, y, value }),
        _ => None,
    }
}

/// The limits of the four scans, and how many of the stations that take part
/// they are to reject: whether a number rejected, out of so many, will do.
struct Plan {
    limits: [i32; 4],
    rejects: &'static str,
    holds: fn(usize, usize) -> bool,
    /// B and L with the round weight, and along the winds.
    checks: [(i32, i32); 2],
}

const PLANS: [Plan; 3] = [
    Plan {
        limits: [500_000; 4],
        rejects: "none",
        holds: |rejected, _| rejected == 0,
        checks: [(512, 100_000), (64, 20_000)],
    },
    Plan {
        limits: [200_000, 120_000, 80_000, 50_000],
        rejects: "some",
        holds: |rejected, of| rejected > 0 && 2 * rejected <= of,
        checks: [(100, 30_000), (257, 60_000)],
    },
    Plan {
        limits: [40_000, 20_000, 10_000, 5_000],
        rejects: "most",
        holds: |rejected, of| 2 * rejected > of,
        checks: [(160, 4_000), (320, 10_000)],
    },
];

/// A plan over some stations, all of them fresh and in service.
fn call(stations: &[Station], plan: &Plan, smooth: bool) -> Call {
    let mut call = Call {
        nx: NX,
        ny: NY,
        first_guess: vec![FIRST_GUESS; (NX * NY) as usize],
        x: stations.iter().map(|station| station.x).collect(),
        y: stations.iter().map(|station| station.y).collect(),
        value: stations.iter().map(|station| station.value).collect(),
        observed: vec![MINUTE; stations.len()],
        from: vec![0; stations.len()],
        until: vec![NO_END; stations.len()],
        scans: 4,
        radius: RADII.to_vec(),
        limit: plan.limits.to_vec(),
        smooth,
        time: MINUTE,
        age: DEFAULT_AGE,
        ..Call::default()
    };
    call.fit_results();
    call
}

/// The document lists no winds. So each row has one by its number, from 0: every
/// 11th from row 5 on has none, every 7th of the others from row 3 on is calm, and
/// the rest blow every way.
fn wind(row: usize) -> (i32, i32) {
    let along = |number: usize| (number % 201) as i32 - 100;
    match row {
        row if row % 11 == 5 => (MISSING, MISSING),
        row if row % 7 == 3 => (0, 0),
        row => (along(37 * row), along(59 * row + 13)),
    }
}

/// The call along those winds.
fn blown(call: Call) -> Call {
    let mut winds = Winds::default();
    (0..call.x.len()).for_each(|row| winds.push(wind(row)));
    Call { winds: Some(winds), mode: ALONG_WIND, ..call }
}

/// The call under rule 2; without that it leaves the rule out.
fn listed(call: Call) -> Call {
    Call { rule: Some(LISTINGS), ..call }
}

/// The call with one of the plan's buddy checks.
fn checked(call: Call, plan: &Plan) -> Call {
    let (radius, limit) = plan.checks[usize::from(call.mode == ALONG_WIND)];
    Call { buddy: Some(Buddy::on(radius, limit)), ..call }
}

/// What becomes of a plan's call before it is run.
type Dress = fn(Call, &Plan) -> Call;

/// A request over as many stations as a request may have, its analysis, and a
/// line on what its limits reject and its weights gain.
struct Accepted {
    call: Call,
    analysis: Analysis,
    said: String,
}

impl Accepted {
    /// Fails if the limits do not reject what they are to.
    fn new(stations: &[Station], plan: &Plan, smooth: bool, dress: Dress) -> Result<Self, String> {
        let call = dress(call(&stations[..MOST_STATIONS.min(stations.len())], plan, smooth), plan);
        let analysis = run(&call);
        let verdicts = analysis.verdict.iter().copied().enumerate();
        let part: Vec<(usize, u8)> = verdicts.filter(|(_, verdict)| *verdict != 5).collect();
        let posts = part.iter().filter(|(row, verdict)| is_post(&call, *row, *verdict)).count();
        let within = |range: Range<u8>| part.iter().filter(|one| range.contains(&one.1)).count();
        let (rejected, aside) = (within(REJECTED..SET_ASIDE), within(SET_ASIDE..u8::MAX));
        let of = part.len();
        let (gained, moved) = (gained(&call, &analysis), moved(&call, &analysis));
        let (alone, company) = (alone(&call, &analysis), company(&call, &analysis, aside));
        let Plan { limits, rejects, holds, .. } = plan;
        let switch = if smooth { "on" } else { "off" };
        let said = format!(
            "limits {limits:?}, smoothing {switch}: {rejected} of {of} rejected; \
             {posts} of the {of} are posts; \
             points that gain support over a run in hundredths: {gained}{moved}{alone}{company}"
        );
        // Whom a check sets aside no limit has to reject.
        let fits = match call.check() {
            None => holds(rejected, of),
            Some(_) => 0 < aside && 2 * aside < of,
        };
        if fits {
            Ok(Accepted { call, analysis, said })
        } else {
            let what = if call.check().is_some() { "some to be set aside" } else { rejects };
            Err(format!("{said}; {what} were to be rejected: choose other limits in real.rs"))
        }
    }

    /// A reading of the analysed field.
    fn query(&self, x: i32, y: i32) -> Query {
        let (field, support) = (self.analysis.grid.clone(), self.analysis.support.clone());
        Query { nx: NX, ny: NY, field, support, x, y }
    }

    /// Readings at the place of every station, on the grid or off it.
    fn readings(&self) -> impl Iterator<Item = ReadingCase> + '_ {
        let places = self.call.x.iter().zip(&self.call.y);
        places.map(|(x, y)| ReadingCase(self.query(*x, *y)))
    }

    /// A text has room for all its stations: it fills about a third of the
    /// limit.
    fn text(&self) -> Vec<u8> {
        written_out(&self.call, Style::default()).into_bytes()
    }
}

/// The points that have support in a scan where a run in hundredths gives none.
fn gained(call: &Call, analysis: &Analysis) -> usize {
    let old = run_in(call, HUNDREDTHS).support;
    analysis.support.iter().zip(old).filter(|(new, old)| *new & !old != 0).count()
}

/// What is said of the points that the wind moves; nothing in mode 0.
fn moved(call: &Call, analysis: &Analysis) -> String {
    if call.mode == ROUND {
        return String::new();
    }
    let round = run(&Call { mode: ROUND, ..call.clone() });
    format!("; points that mode 0 leaves otherwise: {}", unlike(analysis, &round))
}

/// What is said of the points that rule 2 moves otherwise; nothing under rule 1.
fn alone(call: &Call, analysis: &Analysis) -> String {
    if call.rule() == EQUATIONS {
        return String::new();
    }
    let other = run(&Call { rule: Some(EQUATIONS), ..call.clone() });
    format!("; points that rule 1 leaves otherwise: {}", unlike(analysis, &other))
}

/// What is said of the stations that a buddy check sets aside, and of the points that
/// it moves otherwise; nothing where it is off.
fn company(call: &Call, analysis: &Analysis, aside: usize) -> String {
    let Some(Buddy { radius, limit, .. }) = call.check() else {
        return String::new();
    };
    let other = run(&Call { buddy: None, ..call.clone() });
    let points = unlike(analysis, &other);
    format!(
        "; set aside by a check of {radius},{limit}: {aside}; \
         points that no check leaves otherwise: {points}"
    )
}

/// How many points have another value.
fn unlike(one: &Analysis, other: &Analysis) -> usize {
    one.grid.iter().zip(&other.grid).filter(|(one, other)| one != other).count()
}

/// The call with a window, and results as long as that.
fn windowed(mut call: Call, window: Window) -> WindowCase {
    (call.grid_len, call.support_len) = (window.area(), window.area());
    WindowCase { call, window }
}

/// Windows of each size in each corner, on each edge and in the middle.
fn windows() -> impl Iterator<Item = Window> {
    WINDOWS.into_iter().flat_map(|(columns, rows)| {
        let lefts = places(NX - columns).into_iter();
        lefts.flat_map(move |left| {
            let window = move |top| Window::new(left, left + columns - 1, top, top + rows - 1);
            places(NY - rows).into_iter().map(window)
        })
    })
}

/// The call with a screen, and results as long as all its windows.
fn screened(mut call: Call, windows: &[Window]) -> ScreenCase {
    (call.grid_len, call.support_len) = (points(windows), points(windows));
    ScreenCase { call, screen: Screen::new(windows) }
}

/// Screens of sixteen windows, of three, of one and of none. With the plan's
/// radii their cuts have more points together than the grid, but for a lone
/// window; with one scan of a short radius those of some have fewer.
fn screens(call: &Call) -> Vec<ScreenCase> {
    let all: Vec<Window> = windows().collect();
    let (first, last) = (&all[..MOST_WINDOWS], &all[all.len() - MOST_WINDOWS..]);
    let backwards: Vec<Window> = last.iter().rev().copied().collect();
    let whole = [Window::new(0, NX - 1, 0, NY - 1); MOST_WINDOWS];
    let (three, middle, corner) = (&all[8..11], &all[13..14], &all[9..10]);
    let far = [first, &backwards, &whole, three, middle, &[]];
    let near = [first, &all[..3], three, corner];
    let one_scan = Call { scans: 1, radius: vec![SHORT], ..call.clone() };
    let far = far.into_iter().map(|windows| screened(call.clone(), windows));
    far.chain(near.into_iter().map(|windows| screened(one_scan.clone(), windows))).collect()
}

/// The first, the middle and the last of the places 0..=last, each once.
fn places(last: u32) -> Vec<u32> {
    let mut places = vec![0, last / 2, last];
    places.dedup();
    places
}

/// All that is asked over the stations; texts with the round weight alone, and
/// readings and summaries with the rule left out too. The last analysis, window and text, and the last two
/// screens, have all 536 rows, which is too many.
pub struct Cases {
    /// A line on each plan.
    pub said: Vec<String>,
    pub analyses: Vec<AnalysisCase>,
    pub windows: Vec<WindowCase>,
    pub screens: Vec<ScreenCase>,
    pub readings: Vec<ReadingCase>,
    pub summaries: Vec<SummaryCase>,
    pub texts: Vec<TextCase>,
}

impl Cases {
    pub fn new(stations: &[Station]) -> Result<Self, String> {
        let round = accepted(stations, |call, _| call)?;
        let along = accepted(stations, |call, _| blown(call))?;
        let round_listed = accepted(stations, |call, _| listed(call))?;
        let along_listed = accepted(stations, |call, _| listed(blown(call)))?;
        let round_checked = accepted(stations, checked)?;
        let along_checked = accepted(stations, |call, plan| checked(listed(blown(call)), plan))?;
        let all = [&round, &along, &round_listed, &along_listed, &round_checked, &along_checked];
        let accepted = || all.into_iter().flatten();
        let too_many = call(stations, &PLANS[0], false);
        let plain = |text| TextCase { text, sorts: Vec::new() };
        let too_long = written_out(&too_many, Style::default()).into_bytes();
        let texts = round.iter().chain(&round_listed).chain(&round_checked);
        let texts = texts.map(Accepted::text).chain([too_long]);
        let analyses = accepted().map(|one| one.call.clone()).chain([too_many.clone()]);
        let each_window =
            accepted().flat_map(|one| windows().map(|window| windowed(one.call.clone(), window)));
        let refused = windowed(too_many.clone(), Window::new(0, 0, 0, 0));
        let each_screen = accepted().flat_map(|one| screens(&one.call));
        let none = screened(too_many.clone(), &[]);
        let sixteen = screened(too_many.clone(), &[Window::new(0, 0, 0, 0); MOST_WINDOWS]);
        Ok(Cases {
            said: accepted().map(|one| one.said.clone()).collect(),
            analyses: analyses.map(AnalysisCase).collect(),
            windows: each_window.chain([refused]).collect(),
            screens: each_screen.chain([none, sixteen]).collect(),
            readings: round.iter().flat_map(Accepted::readings).collect(),
            summaries: round.iter().map(|one| SummaryCase(one.query(0, 0))).collect(),
            texts: texts.map(plain).collect(),
        })
    }
}

/// Every plan with smoothing off and on, its calls with winds or as they are.
fn accepted(stations: &[Station], dress: Dress) -> Result<Vec<Accepted>, String> {
    let plans = PLANS.iter().flat_map(|plan| [(plan, false), (plan, true)]);
    plans.map(|(plan, smooth)| Accepted::new(stations, plan, smooth, dress)).collect()
}
