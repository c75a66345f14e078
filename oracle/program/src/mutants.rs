//! That the comparison can fail: every wrong version is to be caught, and the right one is not.

use crate::command::Options;
use crate::compare::guarded;
use crate::counts::grouped;
use crate::families;
use crate::model::{AsWritten, Model};
use crate::run::{Run, Stop, Until};
use crate::script::Difference;
use crate::second::Second;
use crate::server::Server;
use crate::{vectors, wrong};

/// A wrong version that is not caught in so many calls is missed.
const PATIENCE: u64 = 20_000_000;
/// The right version is compared over so many.
const RIGHT: u64 = 4_000_000;

pub fn command(options: &Options) -> Result<i32, String> {
    let records = vectors::records()?;
    let mut tally = Tally::default();
    let mut unseen = 0;
    for (what, rules) in wrong::versions() {
        let mut model = Model { rules };
        let vectors = vectors::differing(&records, &mut model);
        unseen += u32::from(vectors == 0);
        let found = difference(Box::new(Server::new(model)), 0, options.seed, PATIENCE);
        tally.tell(what, found, &format!("; {vectors} vectors differ"));
    }
    for (what, how) in wrong::SPOILS.iter().zip(1..) {
        let found = difference(options.library(false), how, options.seed, PATIENCE);
        tally.tell(what, found, "");
    }
    let mut model = Model { rules: Box::new(AsWritten) };
    let vectors = vectors::differing(&records, &mut model);
    let right = difference(Box::new(Server::new(model)), 0, options.seed, RIGHT);
    match &right {
        None => say!("the right version: {} calls, 0 differences", grouped(RIGHT)),
        Some(found) => say!("THE RIGHT VERSION DIFFERS\n{}", found.script),
    }
    say!("; {vectors} of {} vectors differ\n", records.len());
    say!("{} wrong versions caught, {} missed\n", tally.caught, tally.missed);
    let failed = tally.missed > 0 || unseen > 0 || right.is_some() || vectors > 0;
    Ok(i32::from(failed))
}

/// The first difference of a second side within so many calls.
fn difference(second: Box<dyn Second>, spoil: u64, seed: u64, most: u64) -> Option<Difference> {
    let mut run = Run::new(second, Until { seconds: None, calls: Some(most) });
    run.tells = false;
    if spoil != 0 {
        run.spoil(spoil);
    }
    match guarded(&mut families::all(), &mut run, seed) {
        Stop::Difference(found) => Some(found),
        Stop::Enough => None,
    }
}

#[derive(Default)]
struct Tally {
    caught: u32,
    missed: u32,
}

impl Tally {
    fn tell(&mut self, what: &str, found: Option<Difference>, more: &str) {
        match found {
            Some(Difference { calls, place, .. }) => {
                self.caught += 1;
                say!("caught  {what}: {place}, after {} calls{more}\n", grouped(calls));
            }
            None => {
                self.missed += 1;
                say!("MISSED  {what}{more}\n");
            }
        }
    }
}
