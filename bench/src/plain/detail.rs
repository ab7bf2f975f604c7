//! Detail steps: a line takes its record, its place on each path, and leaves them again.

use super::area::{self, sound, Head, Journal, Links, Work};
use super::master;
use super::root::{Field, Path, Root, Shape};
use super::{Refusal, BROKEN, MASTER_FULL, NO_MASTER, SET_FULL};

/// The record that a put takes, and what the set's two leading words become.
pub struct Taken {
    pub record: u32,
    mark: u16,
    freed: u16,
}

/// The first freed record, or the one above the high-water mark.
pub fn take(area: &[u16], shape: &Shape) -> Result<Taken, Refusal> {
    let fits = |number: u16| sound(u32::from(number) <= shape.capacity);
    let (mark, freed) = (area[shape.start], area[shape.start + 1]);
    fits(mark)?;
    fits(freed)?;
    if freed == 0 {
        if u32::from(mark) == shape.capacity {
            return Err(SET_FULL);
        }
        let mark = mark + 1;
        sound(!area::live(area, shape, mark.into()))?;
        return Ok(Taken { record: mark.into(), mark, freed: 0 });
    }
    sound(!area::live(area, shape, freed.into()))?;
    let next = area[shape.at(freed.into())];
    fits(next)?;
    Ok(Taken { record: freed.into(), mark, freed: next })
}

/// Where a new line goes on a path, and how many lines it passes.
struct Place {
    links: Links,
    passed: u16,
}

/// Sorted: from the last line backward, past each whose sort value is greater.
fn place_sorted(
    area: &[u16],
    shape: &Shape,
    path: usize,
    sort: Field,
    last: u32,
    entry: &[u16],
) -> Result<Place, Refusal> {
    let value = sort.of(entry);
    let mut links = Links { back: last, forward: 0 };
    let mut passed = 0;
    while links.back != 0 {
        let line = links.back;
        sound(u32::from(passed) < shape.capacity && area::live(area, shape, line))?;
        if area::value(area, shape, sort, line) <= value {
            break;
        }
        links = Links { back: area::links(area, shape, line, path)?.back, forward: line };
        passed += 1;
    }
    Ok(Place { links, passed })
}

/// Unsorted: at the end.
fn place_last(area: &[u16], shape: &Shape, last: u32) -> Result<Place, Refusal> {
    area::follow(area, shape, last)?;
    Ok(Place { links: Links { back: last, forward: 0 }, passed: 0 })
}

impl<J: Journal> Work<'_, J> {
    /// Puts a line on its paths, then its own words; answers the lines passed.
    pub fn put_line(
        &mut self,
        root: &Root,
        set: usize,
        shape: &Shape,
        taken: &Taken,
        entry: &[u16],
    ) -> Result<[u16; 4], Refusal> {
        let mut passed = [0; 4];
        for path in 0..root.stated(set).paths().len() {
            let to = root.path(set, path);
            passed[path] = self.put_path(&to, shape, path, taken.record, entry)?;
        }
        // Nothing refuses any more: no journal.
        let mut work = Work::unkept(self.area);
        work.store(shape.start, [taken.mark, taken.freed]);
        work.store_run(shape.at(taken.record) + shape.front, entry);
        work.make_live(shape, taken.record);
        Ok(passed)
    }

    fn put_path(
        &mut self,
        to: &Path,
        shape: &Shape,
        path: usize,
        line: u32,
        entry: &[u16],
    ) -> Result<u16, Refusal> {
        let key = to.search.of(entry);
        let holder = match master::find(self.area, &to.master, key)? {
            Some(holder) => holder,
            None if to.master.automatic => {
                self.put_entry(&to.master, key, Refusal(MASTER_FULL + path as i16 + 1))?
            }
            None => return Err(Refusal(NO_MASTER + path as i16 + 1)),
        };
        let head_at = to.master.shape.head_at(holder, to.head);
        let head = area::head(self.area, head_at, shape.capacity)?;
        let Place { links, passed } = match to.sort {
            Some(sort) => place_sorted(self.area, shape, path, sort, head.last, entry)?,
            None => place_last(self.area, shape, head.last)?,
        };
        self.link_neighbours(shape, path, links, Links { back: line, forward: line });
        let last = if links.forward == 0 { line } else { head.last };
        let first = if links.back == 0 { line } else { head.first };
        self.store_head(head_at, Head { count: head.count + 1, last, first });
        self.store_link(shape.links_at(line, path), links.back);
        self.store_link(shape.links_at(line, path) + 2, links.forward);
        Ok(passed)
    }

    /// The line behind gets this forward link and the line ahead this backward one.
    fn link_neighbours(&mut self, shape: &Shape, path: usize, of: Links, to: Links) {
        if of.back != 0 {
            self.store_link(shape.links_at(of.back, path) + 2, to.forward);
        }
        if of.forward != 0 {
            self.store_link(shape.links_at(of.forward, path), to.back);
        }
    }

    /// Deletes a line: off its paths, then its record is the first freed.
    pub fn delete_line(
        &mut self,
        root: &Root,
        set: usize,
        shape: &Shape,
        line: u32,
    ) -> Result<(), Refusal> {
        for path in 0..root.stated(set).paths().len() {
            self.delete_path(root, set, shape, path, line)?;
        }
        let freed = self.area[shape.start + 1];
        sound(u32::from(freed) <= shape.capacity)?;
        // Nothing refuses any more: no journal.
        let mut work = Work::unkept(self.area);
        work.make_unused(shape, line);
        work.store(shape.at(line), [freed]);
        work.store(shape.start + 1, [line as u16]);
        Ok(())
    }

    fn delete_path(
        &mut self,
        root: &Root,
        set: usize,
        shape: &Shape,
        path: usize,
        line: u32,
    ) -> Result<(), Refusal> {
        let to = root.path(set, path);
        let key = area::value(self.area, shape, to.search, line);
        let holder = master::find(self.area, &to.master, key)?.ok_or(BROKEN)?;
        let head_at = to.master.shape.head_at(holder, to.head);
        let head = area::head(self.area, head_at, shape.capacity)?;
        let links = area::links(self.area, shape, line, path)?;
        area::follow(self.area, shape, links.back)?;
        area::follow(self.area, shape, links.forward)?;
        let count = head.count.checked_sub(1).ok_or(BROKEN)?;
        self.link_neighbours(shape, path, links, links);
        let last = if links.forward == 0 { links.back } else { head.last };
        let first = if links.back == 0 { links.forward } else { head.first };
        self.store_head(head_at, Head { count, last, first });
        if to.master.automatic {
            self.drop_empty(root, root.path_master(set, path), &to, holder)?;
        }
        Ok(())
    }

    /// An automatic entry goes with its last line.
    fn drop_empty(
        &mut self,
        root: &Root,
        set: usize,
        to: &Path,
        holder: u32,
    ) -> Result<(), Refusal> {
        if master::has_lines(self.area, root, set, &to.master.shape, holder)? {
            return Ok(());
        }
        self.delete_entry(&to.master, holder)
    }
}
