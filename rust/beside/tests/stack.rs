//! The deepest sheets that are known, on a thread of the size that the wrapper names (`napsilo::STACK`), held to the model.
//!
//! A chain of layers over a variable is made twice as deep by an App, up to the 4,096 nodes of a tree. Then it is a pattern and, moved by a
//! period, the target; and it is replaced in, compared, tested and printed. So every walk over sorts goes as deep as a sheet can take it.

use napsilo::{
    Lent, Name, Names, QuestionRecord, STACK, SheetWriter, SortId, SortRecord, TermRecord, WriteError, judge_into,
    page_into, print_into,
};
use std::thread;

/// What stands around a sort: a set of it, a Par over it, an array of which it is the first or the last part.
#[derive(Debug, Clone, Copy, PartialEq, Eq)]
enum Layer {
    Set,
    Par,
    First,
    Last,
}

use Layer::{First, Last, Par, Set};

impl Layer {
    /// How many nodes of a tree the layer has.
    fn nodes(self) -> usize {
        match self {
            Set | Par => 1,
            First | Last => 2,
        }
    }
}

/// The sorts and names that every sheet here has.
struct Base {
    sheet: SheetWriter,
    int: SortId,
    bool: SortId,
    /// The variable at the end of the chain, and another one.
    first: (Name, SortId),
    second: (Name, SortId),
    /// The name that the Pars of the chain list.
    third: Name,
}

impl Base {
    fn new() -> Result<Self, WriteError> {
        let mut names = Names::new();
        let mut sheet = SheetWriter::new();
        let [first, second, third] = [names.name("first")?, names.name("second")?, names.name("third")?];
        Ok(Base {
            int: sheet.add_sort(SortRecord::Int)?,
            bool: sheet.add_sort(SortRecord::Bool)?,
            first: (first, sheet.add_sort(SortRecord::Var(first))?),
            second: (second, sheet.add_sort(SortRecord::Var(second))?),
            third,
            sheet,
        })
    }

    /// A chain of so many periods over the first variable.
    fn chain(&mut self, period: &[Layer], count: usize) -> Result<SortId, WriteError> {
        let names = [self.third];
        let mut sort = self.first.1;
        for layer in period.iter().rev().cycle().take(count * period.len()) {
            sort = self.sheet.add_sort(match layer {
                Set => SortRecord::Set(sort),
                Par => SortRecord::Par(&names, sort),
                First => SortRecord::Array(sort, self.int),
                Last => SortRecord::Array(self.int, sort),
            })?;
        }
        Ok(sort)
    }

    /// A variable whose sort is a Function under a Par of one name.
    fn function(&mut self, name: Name, sorts: &[SortId]) -> Result<SortId, WriteError> {
        let function = self.sheet.add_sort(SortRecord::Function(sorts))?;
        self.sheet.add_sort(SortRecord::Par(&[name], function))
    }
}

/// A sheet on which a chain is doubled by an App and then matched with itself moved by a period, and replaced in.
fn doubled(period: &[Layer]) -> Result<Vec<u8>, WriteError> {
    let mut base = Base::new()?;
    let nodes: usize = period.iter().map(|layer| layer.nodes()).sum();
    let count = (2040 / nodes).min(2000 / period.len());
    let half = base.chain(period, count)?;
    let one = base.chain(period, 1)?;
    let (first, variable) = base.first;
    let (second, other) = base.second;
    let double = base.function(first, &[variable, half])?;
    let onwards = base.function(first, &[variable, one])?;
    let asked = base.function(first, &[other, base.bool])?;
    let asking = base.function(second, &[other, asked])?;
    let given = base.function(first, &[variable, other])?;
    let giving = base.function(second, &[other, given])?;
    let sheet = &mut base.sheet;
    let chain = sheet.add_term(TermRecord::Var(first, half))?;
    let [double, onwards, asking, giving] = [double, onwards, asking, giving].map(|sort| TermRecord::Var(second, sort));
    let double = sheet.add_term(double)?;
    let onwards = sheet.add_term(onwards)?;
    let asking = sheet.add_term(asking)?;
    let giving = sheet.add_term(giving)?;
    let number = sheet.add_term(TermRecord::Integer(1))?;
    let whole = sheet.add_term(TermRecord::App(double, &[chain]))?;
    let pattern = sheet.add_term(TermRecord::App(asking, &[whole]))?;
    let moved = sheet.add_term(TermRecord::App(onwards, &[whole]))?;
    sheet.add_term(TermRecord::App(pattern, &[moved]))?;
    let result = sheet.add_term(TermRecord::App(giving, &[whole]))?;
    sheet.add_term(TermRecord::App(result, &[number]))?;
    sheet.add_question(QuestionRecord::Compatible(half, half))?;
    sheet.add_question(QuestionRecord::Match { pattern: half, target: half, result: half, names: &[second] })?;
    Ok(sheet.finish().into_bytes())
}

/// A sheet on which a chain of the sheet's own sorts is a declared pattern and is replaced in, in both rows.
fn declared(period: &[Layer]) -> Result<Vec<u8>, WriteError> {
    let mut base = Base::new()?;
    let nodes: usize = period.iter().map(|layer| layer.nodes()).sum();
    let count = (4080 / nodes).min(2000 / period.len());
    let deep = base.chain(period, count)?;
    let one = base.chain(period, 1)?;
    let (first, variable) = base.first;
    let onwards = base.function(first, &[variable, one])?;
    let asked = base.function(first, &[deep, base.bool])?;
    let given = base.function(first, &[variable, deep])?;
    let sheet = &mut base.sheet;
    let chain = sheet.add_term(TermRecord::Var(first, deep))?;
    let [onwards, asked, given] = [onwards, asked, given].map(|sort| TermRecord::Var(first, sort));
    let onwards = sheet.add_term(onwards)?;
    let asked = sheet.add_term(asked)?;
    let given = sheet.add_term(given)?;
    let number = sheet.add_term(TermRecord::Integer(1))?;
    let moved = sheet.add_term(TermRecord::App(onwards, &[chain]))?;
    sheet.add_term(TermRecord::App(asked, &[moved]))?;
    let replaced = sheet.add_term(TermRecord::App(given, &[number]))?;
    sheet.add_term(TermRecord::App(asked, &[replaced]))?;
    sheet.add_question(QuestionRecord::Compatible(deep, deep))?;
    sheet.add_question(QuestionRecord::Match { pattern: deep, target: deep, result: deep, names: &[base.second.0] })?;
    Ok(sheet.finish().into_bytes())
}

/// Judges and prints the sheet on a thread of the named size: the number, the four buffers, the text and the pages.
fn on_named_stack(sheet: &[u8]) -> (model::Judged, [String; 2]) {
    let lent = Lent::PROGRAM;
    let judging = || {
        let mut judged = model::Judged {
            number: 0,
            records: vec![0; lent.records],
            places: vec![0; lent.places],
            rows: vec![0; lent.rows],
            answers: vec![0; lent.answers],
        };
        let said = judge_into(sheet, &mut judged.records, &mut judged.places, &mut judged.rows, &mut judged.answers);
        assert!(said.is_ok());
        let texts = [print_into, page_into].map(|into| {
            let mut text = vec![0; 1 << 24];
            let end = into(sheet, 0, &mut text);
            text.truncate(end);
            String::from_utf8(text).expect("the library writes ASCII")
        });
        (judged, texts)
    };
    thread::scope(|scope| {
        let thread = thread::Builder::new().stack_size(STACK).spawn_scoped(scope, judging);
        thread.expect("a thread can be started").join().expect("the thread ends")
    })
}

#[test]
fn the_deepest_sheets() {
    let mut periods: Vec<Vec<Layer>> = [Set, Par, First, Last].map(|layer| vec![layer]).to_vec();
    periods.extend([[Set, Par], [First, Par], [Par, First], [Last, Par], [First, Last]].map(Vec::from));
    periods.push([vec![Set], vec![Par; 15]].concat());
    periods.push([vec![First], vec![Par; 15]].concat());
    for period in periods {
        for sheet in [doubled(&period), declared(&period)] {
            let sheet = sheet.expect("the sheet is one");
            let (judged, texts) = on_named_stack(&sheet);
            let lent = Lent::PROGRAM;
            let expected = oracle::on_stack(|| {
                let judged = model::judge(&sheet, lent.records, lent.places, lent.rows, lent.answers);
                (judged, [model::printout(&sheet), model::page(&sheet)])
            });
            assert!(judged == expected.0, "buffers, {period:?}");
            assert!(texts == expected.1, "text or pages, {period:?}");
        }
    }
}
