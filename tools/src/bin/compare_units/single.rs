//! The calls that measure a unit and write it, that are made for a file.

use crate::calls::{Emitted, SPARE_TEXT, SPARE_WORK};
use crate::library;
use crate::tally::{Call, Source, Tally};
use recomp_tools::lent;
use recomp_tools::misled::{far, near};
use recomp_tools::units::{measured, written, Told};

impl Tally {
    /// One call that measures with so many work numbers lent, and all that it leaves. What it told.
    fn measure(&mut self, file: &Emitted, unit: u64, lent: usize) -> Told {
        let mut work = lent::work(lent);
        let answer = library::measure(file.tried.bytes, file.size, unit, &mut work);
        let expected = measured(file.checked, &file.units, unit, lent);
        let wrong_number = lent::wrong_number(&work, expected.cleared);
        self.count(Call::Measure, expected.numbers.number);
        let right = answer == expected.numbers && wrong_number.is_none();
        if !right && self.mismatch() {
            let (size, trial) = (file.size, file.tried.trial);
            println!("measuring unit {unit} at {size} of {trial:?},");
            println!("  {lent} work numbers:");
            println!("  library {answer:?},");
            println!("  expected {:?}", expected.numbers);
            println!("  first wrong work number: {wrong_number:?}");
        }
        answer.told
    }

    /// One call that writes with so many numbers and bytes lent, and all that it leaves. The number
    /// that it must answer.
    fn write(&mut self, file: &Emitted, told: Told, lent: [usize; 2]) -> u32 {
        let (mut work, mut text) = (lent::work(lent[0]), lent::text(lent[1]));
        let answer = library::write(file.tried.bytes, file.size, told, &mut work, &mut text);
        let expected = written(file.checked, &file.units, told, lent);
        let wrong_number = lent::wrong_number(&work, expected.cleared);
        let wrong_byte = lent::wrong_byte(&text, expected.front);
        self.count(Call::Write, expected.numbers.number);
        let right = answer == expected.numbers && wrong_number.is_none() && wrong_byte.is_none();
        if !right && self.mismatch() {
            let (size, trial) = (file.size, file.tried.trial);
            println!("writing {told:?} at {size} of {trial:?},");
            println!("  {} work numbers, {} bytes of text:", lent[0], lent[1]);
            println!("  library {answer:?}, expected {:?}", expected.numbers);
            println!("  first wrong work number and byte: {wrong_number:?}, {wrong_byte:?}");
        }
        expected.numbers.number
    }

    /// One call after the other: what the first told is given to the second, under the number that
    /// was asked for, which a refusal does not tell.
    pub fn unit(&mut self, file: &Emitted, unit: u64, lent: [usize; 2]) {
        let told = self.measure(file, unit, lent[0]);
        self.write(file, Told { unit, ..told }, lent);
    }

    /// All that is tried with single units of an accepted file.
    pub fn single(&mut self, file: &Emitted) {
        self.all_units(file);
        for k in file.chosen(file.units.len()) {
            self.short_text(file, k);
            self.misled(file, k);
        }
        self.no_such_unit(file);
        if file.work() > 0 {
            self.short_work(file);
        }
    }

    /// Every unit, with buffers that are exactly as long as they must be.
    fn all_units(&mut self, file: &Emitted) {
        for (k, unit) in file.units.iter().enumerate() {
            self.unit(file, k as u64, [file.work(), unit.text.len()]);
        }
    }

    /// Buffers with room to spare, and the text a byte short and empty.
    fn short_text(&mut self, file: &Emitted, k: usize) {
        let (work, text) = (file.work(), file.units[k].text.len());
        let unit = k as u64;
        self.unit(file, unit, [work + SPARE_WORK, text + SPARE_TEXT]);
        self.unit(file, unit, [work, text - 1]);
        self.unit(file, unit, [work + SPARE_WORK, 0]);
    }

    /// A unit by values that are not its own: each of them off by one, the last mark turned over
    /// and 2, one or several of them far off, those of the next unit; and in turns one of these
    /// with a text that is a byte short, and empty.
    fn misled(&mut self, file: &Emitted, k: usize) {
        let told = file.told(k);
        let (work, text) = (file.work(), told.length as usize);
        let turn = self.sizes as usize + k;
        let mut values = near(told);
        let far = far(told);
        values.push(far[turn % far.len()]);
        let next = (k + 1) % file.units.len();
        if next != k {
            let unit = told.unit;
            values.push(Told {
                unit,
                ..file.told(next)
            });
        }
        for &told in &values {
            self.write(file, told, [work, text]);
        }
        let told = values[turn % values.len()];
        self.write(file, told, [work + SPARE_WORK, text - 1]);
        self.write(file, told, [work, 0]);
    }

    /// Numbers past the last unit, of which some would name one by their low 32 bits alone; with
    /// room for any unit, and with none; beside the number zeros, what is told of the last unit,
    /// and values that are not even its own.
    fn no_such_unit(&mut self, file: &Emitted) {
        let (count, work) = (file.units.len() as u64, file.work());
        let last = file.told(file.units.len() - 1);
        let text = file.units.iter().map(|unit| unit.text.len()).max();
        let text = text.unwrap_or(0);
        for unit in [count, count + 1, 1 << 32, (1 << 32) + count - 1, u64::MAX] {
            self.unit(file, unit, [work, text]);
            self.write(file, Told { unit, ..last }, [work, text]);
        }
        self.unit(file, count, [work + SPARE_WORK, 0]);
        let past = Told {
            unit: count,
            ..last
        };
        for wrong in near(past) {
            self.write(file, wrong, [work, text]);
        }
    }

    /// A work number too few and none: whatever unit is named, whatever is told of it, and however
    /// long the text is.
    fn short_work(&mut self, file: &Emitted) {
        let (count, work) = (file.units.len() as u64, file.work());
        let first = file.told(0);
        let text = first.length as usize;
        self.unit(file, 0, [work - 1, text]);
        self.unit(file, count, [work - 1, text]);
        self.unit(file, count - 1, [work - 1, 0]);
        self.unit(file, 0, [0, text + SPARE_TEXT]);
        self.write(file, first, [work - 1, text]);
        for wrong in near(first) {
            self.write(file, wrong, [work - 1, text]);
        }
    }

    /// Units by what was told of them elsewhere, with a text that the unit here would just fill.
    pub fn kept(&mut self, file: &Emitted, told: &[Told], source: Source) {
        for told in file.chosen(told.len()).into_iter().map(|k| told[k]) {
            let here = file.units.get(told.unit as usize);
            let text = here.map_or(told.length as usize, |unit| unit.text.len());
            let number = self.write(file, told, [file.work(), text]);
            self.count_kept(source, number);
        }
    }

    /// A damaged copy, which may be accepted, is lent enough, and nothing. Then it is written by
    /// what was told of the file before the damage, and by values that are not even its own.
    pub fn single_of_damaged(&mut self, file: &Emitted, told: &[Told]) {
        let text = file.units.first().map_or(0, |unit| unit.text.len());
        let enough = [file.work() + SPARE_WORK, text + SPARE_TEXT];
        self.unit(file, 0, enough);
        self.unit(file, u64::MAX, [0, 0]);
        self.kept(file, told, Source::Damage);
        for wrong in near(told[0]) {
            self.write(file, wrong, enough);
        }
    }
}
