//! What a C call receives and gives, as plain columns and numbers.

use crate::field::Shape;
use crate::units::{DEFAULT_RULE, MISSING};

/// The two wind columns, good or bad.
#[derive(Clone, Debug, Default, PartialEq, Eq)]
pub struct Winds {
    pub u: Vec<i32>,
    pub v: Vec<i32>,
}

impl Winds {
    /// So many rows without a wind.
    pub fn missing(rows: usize) -> Self {
        Winds { u: vec![MISSING; rows], v: vec![MISSING; rows] }
    }

    pub fn push(&mut self, (u, v): (i32, i32)) {
        self.u.push(u);
        self.v.push(v);
    }

    /// Those of some rows alone.
    pub fn of_rows(&self, rows: &[usize]) -> Self {
        let of = |column: &[i32]| rows.iter().map(|row| column[*row]).collect();
        Winds { u: of(&self.u), v: of(&self.v) }
    }

    pub fn columns(&self) -> [&Vec<i32>; 2] {
        [&self.u, &self.v]
    }

    pub fn columns_mut(&mut self) -> [&mut Vec<i32>; 2] {
        [&mut self.u, &mut self.v]
    }
}

/// The three arguments of the buddy check, good or bad. Where it is off, neither of
/// its numbers is read.
#[derive(Clone, Copy, Debug, Default, PartialEq, Eq)]
pub struct Buddy {
    pub on: bool,
    /// B
    pub radius: i32,
    /// L
    pub limit: i32,
}

impl Buddy {
    pub fn on(radius: i32, limit: i32) -> Self {
        Buddy { on: true, radius, limit }
    }
}

/// The raw arguments of a whole analysis, a window query or a screen, good or
/// bad.
/// Of the result slices only the lengths matter to the outcome.
#[derive(Clone, Debug, Default, PartialEq, Eq)]
pub struct Call {
    pub nx: u32,
    pub ny: u32,
    pub first_guess: Vec<i32>,
    pub x: Vec<i32>,
    pub y: Vec<i32>,
    pub value: Vec<i32>,
    pub observed: Vec<u32>,
    pub from: Vec<u32>,
    pub until: Vec<u32>,
    /// Where they are left out, no station has a wind.
    pub winds: Option<Winds>,
    pub scans: u32,
    pub radius: Vec<i32>,
    pub limit: Vec<i32>,
    pub smooth: bool,
    pub mode: u32,
    /// Where it is left out, it is the default.
    pub rule: Option<u32>,
    /// Where it is left out, it is off.
    pub buddy: Option<Buddy>,
    pub time: u32,
    pub age: u32,
    pub grid_len: usize,
    pub support_len: usize,
    pub verdict_len: usize,
}

impl Call {
    /// The grid's shape; it means something once refusal 1 is ruled out.
    pub fn shape(&self) -> Shape {
        Shape { nx: self.nx as usize, ny: self.ny as usize }
    }

    /// The rule that is asked for, good or bad.
    pub fn rule(&self) -> u32 {
        self.rule.unwrap_or(DEFAULT_RULE)
    }

    /// The buddy check that is asked for, good or bad; none where it is off.
    pub fn check(&self) -> Option<Buddy> {
        self.buddy.filter(|buddy| buddy.on)
    }

    /// The wind of a row, none where it is missing; it means something once
    /// refusal 8 is ruled out.
    pub fn wind(&self, row: usize) -> Option<(i64, i64)> {
        let winds = self.winds.as_ref()?;
        let (u, v) = (winds.u[row], winds.v[row]);
        (u != MISSING).then_some((u.into(), v.into()))
    }

    /// The wind columns; where they were left out, columns of marks as long as x
    /// take their place.
    pub fn winds_mut(&mut self) -> &mut Winds {
        let rows = self.x.len();
        self.winds.get_or_insert_with(|| Winds::missing(rows))
    }

    /// Gives the result slices the lengths that a whole analysis asks for.
    pub fn fit_results(&mut self) {
        self.grid_len = self.first_guess.len();
        self.support_len = self.first_guess.len();
        self.verdict_len = self.x.len();
    }
}

/// The four ends of a window; they count from 0 and are inside it.
#[derive(Clone, Copy, Debug, PartialEq, Eq)]
pub struct Window {
    pub left: u32,
    pub right: u32,
    pub top: u32,
    pub bottom: u32,
}

impl Window {
    pub fn new(left: u32, right: u32, top: u32, bottom: u32) -> Self {
        Window { left, right, top, bottom }
    }

    /// The number of points in a window whose ends are in order.
    pub fn area(&self) -> usize {
        let columns = (self.right - self.left) as usize + 1;
        let rows = (self.bottom - self.top) as usize + 1;
        columns * rows
    }

    /// What becomes of the area where nobody looks whether the ends are in
    /// order, or whether a product fits.
    pub fn wrapped_area(&self) -> u32 {
        let columns = self.right.wrapping_sub(self.left).wrapping_add(1);
        let rows = self.bottom.wrapping_sub(self.top).wrapping_add(1);
        columns.wrapping_mul(rows)
    }
}

/// The windows of a screen as a C call gets them: four columns of ends, equal
/// or not, and as many as there are.
#[derive(Clone, Debug, Default, PartialEq, Eq)]
pub struct Screen {
    pub left: Vec<u32>,
    pub right: Vec<u32>,
    pub top: Vec<u32>,
    pub bottom: Vec<u32>,
}

impl Screen {
    pub fn new(windows: &[Window]) -> Self {
        Screen {
            left: windows.iter().map(|window| window.left).collect(),
            right: windows.iter().map(|window| window.right).collect(),
            top: windows.iter().map(|window| window.top).collect(),
            bottom: windows.iter().map(|window| window.bottom).collect(),
        }
    }

    pub fn columns(&self) -> [&Vec<u32>; 4] {
        [&self.left, &self.right, &self.top, &self.bottom]
    }

    pub fn columns_mut(&mut self) -> [&mut Vec<u32>; 4] {
        [&mut self.left, &mut self.right, &mut self.top, &mut self.bottom]
    }

    /// The windows of which all four columns have an end; with equal columns
    /// these are all.
    pub fn windows(&self) -> Vec<Window> {
        let across = self.left.iter().zip(&self.right);
        let down = self.top.iter().zip(&self.bottom);
        let ends = across.zip(down);
        ends.map(|((left, right), (top, bottom))| Window::new(*left, *right, *top, *bottom))
            .collect()
    }
}

/// The raw arguments of a point reading; a summary takes all but the support
/// and the place.
#[derive(Clone, Debug, PartialEq, Eq)]
pub struct Query {
    pub nx: u32,
    pub ny: u32,
    pub field: Vec<i32>,
    pub support: Vec<u8>,
    pub x: i32,
    pub y: i32,
}

/// The raw arguments of a smoothing by itself, which is for tests alone.
#[derive(Clone, Debug, PartialEq, Eq)]
pub struct Field {
    pub nx: u32,
    pub ny: u32,
    pub values: Vec<i32>,
}

impl Field {
    /// The grid's shape; it means something where the sides are in range.
    pub fn shape(&self) -> Shape {
        Shape { nx: self.nx as usize, ny: self.ny as usize }
    }
}

/// A refusal number of the table and the place it names.
#[derive(Clone, Copy, Debug, PartialEq, Eq)]
pub struct Refusal {
    pub number: u32,
    pub place: u32,
}

impl Refusal {
    pub fn new(number: u32, place: u32) -> Self {
        Refusal { number, place }
    }

    /// The one u32 in which the C calls return it.
    pub fn code(&self) -> u32 {
        self.number * 65_536 + self.place
    }
}

/// The results of an accepted whole analysis.
#[derive(Clone, Debug, PartialEq, Eq)]
pub struct Analysis {
    pub grid: Vec<i32>,
    pub support: Vec<u8>,
    pub verdict: Vec<u8>,
}

/// The results of an accepted window query, row by row; those of a screen are
/// the windows' one after the other.
#[derive(Clone, Debug, PartialEq, Eq)]
pub struct WindowAnswer {
    pub grid: Vec<i32>,
    pub support: Vec<u8>,
}
