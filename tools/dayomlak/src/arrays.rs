//! The named arrays of a program: which cell an index is of, and what a cell is called.

use asm::Span;
use ttda::layout::fields::array;
use ttda::layout::unsigned;
use ttda::widths::ARRAY;

use crate::answer::count;

#[derive(Clone, Debug, PartialEq, Eq)]
pub struct Array {
    pub name: String,
    first: u16,
    pub length: u16,
    /// Where it stands in the text.
    pub span: Option<Span>,
}

impl Array {
    /// The cell of an index, which counts from 1; `None` for one that the array does not have.
    pub fn cell(&self, index: i32) -> Option<i32> {
        let is_index = (1..=i32::from(self.length)).contains(&index);
        is_index.then(|| i32::from(self.first) + index - 1)
    }

    /// The name of a cell as an element, such as `a[3]`.
    pub fn element(&self, cell: i32) -> Option<String> {
        let index = cell.checked_sub(self.first.into())?.checked_add(1)?;
        let is_index = self.cell(index).is_some();
        is_index.then(|| format!("{}[{index}]", self.name))
    }

    /// The cell behind its last one.
    pub fn end(&self) -> usize {
        usize::from(self.first) + usize::from(self.length)
    }

    /// Its cells in words.
    pub fn cells(&self) -> String {
        let (name, first) = (&self.name, self.first);
        match self.length {
            0 => format!("`{name}` is empty, at cell {first}"),
            1 => format!("`{name}` has cell {first}"),
            _ => format!("`{name}` has cells {first} to {}", self.end() - 1),
        }
    }

    /// Its elements in words.
    pub fn elements(&self) -> String {
        let (name, length) = (&self.name, self.length);
        match length {
            0 => format!("`{name}` is empty"),
            1 => format!("its only element is `{name}[1]`"),
            _ => format!("its elements are `{name}[1]` to `{name}[{length}]`"),
        }
    }

    /// That it does not have an index, in words.
    pub fn lacks(&self, index: i32) -> String {
        let elements = count(self.length.into(), "element");
        format!("`{}` has {elements}; index {index}", self.name)
    }

    /// Its first cell that is another's, too.
    pub fn shared(&self, other: &Array) -> Option<i32> {
        let first = self.first.max(other.first);
        (usize::from(first) < self.end().min(other.end())).then_some(first.into())
    }
}

#[derive(Clone, Debug, Default, PartialEq, Eq)]
pub struct Arrays(Vec<Array>);

impl Arrays {
    /// The arrays of a table, by the names of a text where they have one.
    pub fn of(table: &[u8], typed: &[asm::Array]) -> Arrays {
        let array = |(number, record): (usize, &[u8])| {
            let typed = typed.get(number);
            Array {
                name: typed.map_or(format!("array{}", number + 1), |array| array.name.clone()),
                first: unsigned(record, array::FIRST),
                length: unsigned(record, array::LENGTH),
                span: typed.map(|array| array.place.span.clone()),
            }
        };
        let records = table.chunks_exact(ARRAY).enumerate();
        Arrays(records.map(array).collect())
    }

    pub fn all(&self) -> &[Array] {
        &self.0
    }

    /// The array of a number, which counts from 1.
    pub fn get(&self, number: i32) -> Option<&Array> {
        self.0.get(usize::try_from(number).ok()?.checked_sub(1)?)
    }

    /// What a cell is called: `a[3]` by the first array that has it, else `cell 22`.
    pub fn name(&self, cell: i32) -> String {
        let element = self.0.iter().find_map(|array| array.element(cell));
        element.unwrap_or_else(|| format!("cell {cell}"))
    }
}

#[cfg(test)]
mod tests {
    use super::*;

    #[test]
    fn cells_and_their_names() {
        let arrays = Arrays::of(&[20, 0, 3, 0, 22, 0, 4, 0, 9, 0, 0, 0], &[]);
        let [one, two, none] = arrays.all() else {
            panic!("three arrays");
        };
        let cells = [-1, 0, 1, 3, 4].map(|index| one.cell(index));
        assert_eq!(cells, [None, None, Some(20), Some(22), None]);
        let names = [19, 20, 22, 23, 25, 26, -5].map(|cell| arrays.name(cell));
        let words = [
            "cell 19",
            "array1[1]",
            "array1[3]",
            "array2[2]",
            "array2[4]",
            "cell 26",
            "cell -5",
        ];
        assert_eq!(names, words);
        assert_eq!(
            (two.element(22), none.cell(1)),
            (Some("array2[1]".to_string()), None)
        );
        assert_eq!(
            (one.shared(two), one.shared(none), two.shared(one)),
            (Some(22), None, Some(22))
        );
        assert_eq!(arrays.get(0).or(arrays.get(4)).or(arrays.get(-1)), None);
        assert_eq!(arrays.get(1), Some(one));
        assert_eq!(arrays.name(i32::MIN), "cell -2147483648");
        assert_eq!(arrays.name(i32::MAX), "cell 2147483647");
    }
}
