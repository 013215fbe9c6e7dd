//! Who waits, and in which order: all by the turns that the library gives, and on one guard.
use crate::{Outline, Place, Point, Record};

fn turn(places: &[Place; 16], turns: &[u8; 16], thread: u8) -> Option<u8> {
    let thread = usize::from(thread);
    match places.get(thread)? {
        Place::Waiting(_) => Some(turns[thread]),
        _ => None,
    }
}

fn queue(places: &[Place; 16], turns: &[u8; 16]) -> Vec<u8> {
    let mut all: Vec<u8> = (0..16).filter(|&thread| turn(places, turns, thread).is_some()).collect();
    all.sort_by_key(|&thread| turns[usize::from(thread)]);
    all
}

/// Those of the queue that wait on a guard; all their places are among the sixteen.
fn line(places: &[Place; 16], queue: Vec<u8>, outline: &Outline, guard: usize) -> Vec<u8> {
    let on = |thread: &u8| matches!(places[usize::from(*thread)], Place::Waiting(region) if outline.guard_of(region.into()) == Some(guard));
    queue.into_iter().filter(on).collect()
}

impl Record {
    /// A thread's turn: how many of all who wait began before it. None where it does not wait.
    pub fn turn(&self, thread: u8) -> Option<u8> {
        turn(&self.places, &self.turns, thread)
    }

    /// All who wait, on whichever guard, the earliest first.
    pub fn queue(&self) -> Vec<u8> {
        queue(&self.places, &self.turns)
    }

    /// The line on a guard of the run's file: those of the queue that wait on it. The first of them is the guard's first waiter.
    pub fn line(&self, outline: &Outline, guard: usize) -> Vec<u8> {
        line(&self.places, self.queue(), outline, guard)
    }
}

impl Point {
    /// A thread's turn: how many of all who wait began before it. None where it does not wait.
    pub fn turn(&self, thread: u8) -> Option<u8> {
        turn(&self.places, &self.turns, thread)
    }

    /// All who wait, on whichever guard, the earliest first.
    ///
    /// ```
    /// let file = b"monitor Box { var full = 0 in 0..1; keep true;
    ///     method put { waituntil (full == 0) { full := 1; } }
    ///     method get { waituntil (full == 1) { full := 0; } } }";
    /// // Thread 5 waits to get, then 0 does; 5 is the first waiter, and goes first when 2 has put.
    /// let points = damsonyet::points(file, b"050100\n000100\n020001\n050101\n", 0).unwrap().points;
    /// assert_eq!((points[3].queue(), points[4].queue()), (vec![5, 0], vec![0]));
    /// assert_eq!([0, 2, 5].map(|thread| points[3].turn(thread)), [Some(1), None, Some(0)]);
    /// ```
    pub fn queue(&self) -> Vec<u8> {
        queue(&self.places, &self.turns)
    }

    /// The line on a guard of the run's file: those of the queue that wait on it. The first of them is the guard's first waiter.
    ///
    /// ```
    /// let file = b"monitor two { var x = 0 in 0..2; keep true;
    ///     method one { waituntil (x == 1) { x := 0; } }
    ///     method two { waituntil (x == 2) { x := 0; } } }";
    /// let outline = damsonyet::outline(file).unwrap().0;
    /// let points = damsonyet::points(file, b"090000\n030100\n010000\n", 0).unwrap().points;
    /// assert_eq!(points[3].queue(), [9, 3, 1]);
    /// assert_eq!((points[3].line(&outline, 0), points[3].line(&outline, 1)), (vec![9, 1], vec![3]));
    /// ```
    pub fn line(&self, outline: &Outline, guard: usize) -> Vec<u8> {
        line(&self.places, self.queue(), outline, guard)
    }
}

#[cfg(test)]
mod tests {
    use crate::{Notices, Outline, Place, Point, Record, Region};

    /// Regions 0 to 3 with the guards 0, 1, 0 and 2.
    fn outline() -> Outline {
        let region = |guard_number| Region { guard: 0..0, body: 0..0, guard_number };
        let regions = [0, 1, 0, 2].map(region).to_vec();
        Outline { title: 0..0, keep: 0..0, tries: vec![], variables: vec![], methods: vec![], regions, guards: 3, states: 1, start: 0 }
    }

    /// Threads 12, 3, 7, 0 and 15 began in this order; thread 4 is due and the others are idle.
    fn who_waits() -> ([Place; 16], [u8; 16]) {
        let (mut places, mut turns) = ([Place::Idle; 16], [0; 16]);
        for (turn, (thread, region)) in [(12, 2), (3, 1), (7, 0), (0, 2), (15, 1)].into_iter().enumerate() {
            (places[thread], turns[thread]) = (Place::Waiting(region), turn as u8);
        }
        places[4] = Place::Due(3);
        (places, turns)
    }

    #[test]
    fn turns_and_lines() {
        let (places, turns) = who_waits();
        let none = Notices { notified: 0, told: 0 };
        let record = Record { values: vec![], places, notified: vec![], turns };
        let point = Point { values: [0; 6], places, turns, guards: 0, plain: none, table: None };
        let by_thread: Vec<Option<u8>> = (0..17).map(|thread| point.turn(thread)).collect();
        let wanted = |thread: u8| [12, 3, 7, 0, 15].iter().position(|&t| t == thread).map(|turn| turn as u8);
        assert_eq!(by_thread, (0..17).map(wanted).collect::<Vec<_>>());
        assert_eq!(point.queue(), [12, 3, 7, 0, 15]);
        let lines = [0, 1, 2, 3].map(|guard| point.line(&outline(), guard));
        assert_eq!(lines, [vec![12, 7, 0], vec![3, 15], vec![], vec![]]);
        assert_eq!((0..17).map(|thread| record.turn(thread)).collect::<Vec<_>>(), by_thread);
        assert_eq!(record.queue(), point.queue());
        assert_eq!([0, 1, 2, 3].map(|guard| record.line(&outline(), guard)), lines);
    }

    #[test]
    fn nobody_waits() {
        let mut places = [Place::Idle; 16];
        places[9] = Place::Due(1);
        let record = Record { values: vec![], places, notified: vec![], turns: [0; 16] };
        assert!(record.queue().is_empty() && record.line(&outline(), 1).is_empty());
        assert!((0..=255).all(|thread| record.turn(thread).is_none()));
    }
}
