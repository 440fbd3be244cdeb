//! The records: a sort with what the paper says of it.

use crate::list::List;
use crate::numbers::Cone;
use crate::paper::delivery::{handed, Sort, Sorted};
use crate::paper::ticket::Space;
use crate::random::Random;
use crate::seen::Seen;

pub struct Deliveries {
    pub random: Random,
    list: List,
    records: u64,
    pub seen: Seen,
}

impl Deliveries {
    pub fn open() -> Deliveries {
        Deliveries {
            random: Random(32),
            list: List::open(),
            records: 0,
            seen: Seen::default(),
        }
    }

    fn write_all(&mut self, numbers: &[u64]) {
        for number in numbers {
            self.list.write(&number.to_le_bytes());
        }
    }

    fn write(&mut self, sort: &Sort, sorted: &Sorted) {
        let [first, second, third] = sort.lengths();
        let counts = [first, second, third, sort.results.len()];
        self.write_all(&[sort.space as u64]);
        self.write_all(&counts.map(|count| count as u64));
        for setting in [sort.white, sort.l, sort.c, 0] {
            self.list.write(&setting.to_le_bytes());
        }
        self.list.write(&handed(sorted));
        for slice in &sort.readings {
            self.write_all(slice);
        }
        self.write_all(&sort.results);
        self.write_all(&sort.results_after(sorted));
    }

    /// The sort, refused or not.
    pub fn record(&mut self, sort: &Sort) {
        let (sorted, faults) = (sort.sorted(), sort.faults());
        assert_eq!(sorted.as_ref().err(), faults.first(), "{faults:?}");
        self.write(sort, &sorted);
        self.records += 1;
        self.seen.sort(sort, &faults, &sorted);
    }

    /// These cones under any white, l and c, with a result slice that is long enough.
    pub fn add(&mut self, space: Space, cones: &[Cone]) {
        let sort = self.random.sort(space, cones);
        self.record(&sort);
    }

    /// So many cones of any kind.
    pub fn add_any(&mut self, space: Space, count: usize) {
        let sort = self.random.any_sort(space, count);
        self.record(&sort);
    }

    pub fn end(mut self) {
        self.seen.check();
        self.write_all(&[2, self.records]);
        // the rest of a record that has no slices
        self.write_all(&[0; 10]);
        self.list.close();
        eprintln!(
            "delivery-answers: {} deliveries; {} cones in those accepted",
            self.records, self.seen.cones
        );
    }
}
