//! A yardstick for our own listing: the published first algorithm for listing all minimum spanning trees (partition by
//! required and forbidden links, a Kruskal run for each part), on complete networks at one price.
//!
//! A part is all cheapest trees that have the required links and none of the forbidden ones. A Kruskal run finds one such
//! tree, or that there is none of least total. That tree is a row; the others of the part differ from it first in some
//! link that is not required, so there is one smaller part for each: that link is forbidden, those before it are required.
//!
//! Printed are, for each number of sites given: sites, rows, parts looked at, seconds.

use std::time::Instant;

#[derive(Clone, Copy)]
struct Link {
    one: usize,
    other: usize,
    weight: u64,
}

#[derive(Clone, Copy, PartialEq)]
enum State {
    Free,
    Required,
    Forbidden,
}

struct Listing {
    sites: usize,
    /// In rank order.
    links: Vec<Link>,
    states: Vec<State>,
    least: u64,
    rows: u64,
    parts: u64,
    /// Read by nobody, so that rows are made and not only counted.
    mixed: u64,
}

/// The site that stands for the component of a site; paths are halved on the way.
fn find(leaders: &mut [usize], mut site: usize) -> usize {
    while leaders[site] != site {
        leaders[site] = leaders[leaders[site]];
        site = leaders[site];
    }
    site
}

impl Listing {
    fn new(sites: usize, mut links: Vec<Link>) -> Listing {
        links.sort_by_key(|link| link.weight);
        let states = vec![State::Free; links.len()];
        let mut listing = Listing { sites, links, states, least: 0, rows: 0, parts: 0, mixed: 0 };
        listing.least = listing.kruskal().expect("the sites are joined").1;
        listing
    }

    /// The cheapest tree with all required links and no forbidden one: its links that are not required, and its total.
    fn kruskal(&self) -> Option<(Vec<usize>, u64)> {
        let mut leaders: [usize; 64] = std::array::from_fn(|site| site);
        let (mut size, mut total) = (0, 0);
        for (link, _) in self.links.iter().zip(&self.states).filter(|(_, state)| **state == State::Required) {
            let (one, other) = (find(&mut leaders, link.one), find(&mut leaders, link.other));
            leaders[one] = other;
            size += 1;
            total += link.weight;
        }
        let mut chosen = Vec::with_capacity(self.sites);
        for (number, link) in self.links.iter().enumerate() {
            if size == self.sites - 1 {
                break;
            }
            if self.states[number] != State::Free {
                continue;
            }
            let (one, other) = (find(&mut leaders, link.one), find(&mut leaders, link.other));
            if one != other {
                leaders[one] = other;
                size += 1;
                total += link.weight;
                chosen.push(number);
            }
        }
        (size == self.sites - 1).then_some((chosen, total))
    }

    fn give(&mut self, chosen: &[usize]) {
        self.rows += 1;
        for number in chosen {
            self.mixed = self.mixed.rotate_left(5) ^ *number as u64;
        }
    }

    fn list(&mut self) {
        self.parts += 1;
        let Some((chosen, total)) = self.kruskal() else { return };
        if total > self.least {
            return;
        }
        self.give(&chosen);
        for &number in &chosen {
            self.states[number] = State::Forbidden;
            self.list();
            self.states[number] = State::Required;
        }
        for &number in &chosen {
            self.states[number] = State::Free;
        }
    }
}

fn complete(sites: usize) -> Vec<Link> {
    let ends = (0..sites).flat_map(|one| (one + 1..sites).map(move |other| (one, other)));
    ends.map(|(one, other)| Link { one, other, weight: 7 }).collect()
}

fn main() {
    for sites in std::env::args().skip(1).map(|word| word.parse().expect("a number of sites from 1 to 64")) {
        let mut listing = Listing::new(sites, complete(sites));
        let start = Instant::now();
        listing.list();
        let seconds = start.elapsed().as_secs_f64();
        std::hint::black_box(listing.mixed);
        println!("{sites} {} {} {seconds:.3}", listing.rows, listing.parts);
    }
}
