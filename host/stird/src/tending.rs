//! What is done from time to time for certificates that were fetched: those that are soon due are
//! fetched anew, new ones are written to the folder, and what belongs to none is dropped.
use crate::routes::Service;
use std::sync::Arc;
use std::time::Duration;
use tokio::time::{interval, MissedTickBehavior};

/// How often what is kept is looked at, and each how many times it is written and swept.
const EACH: Duration = Duration::from_secs(1);
const TIMES: u64 = 5;

/// Does so as long as the service runs.
pub async fn tend(service: Arc<Service>) {
    let judge = &service.judge;
    let mut ticks = interval(EACH);
    ticks.set_missed_tick_behavior(MissedTickBehavior::Delay);
    for number in 1_u64.. {
        ticks.tick().await;
        if let Some(fetching) = &judge.fetching {
            fetching.cache.tend();
            if number % TIMES == 0 {
                fetching.save().await;
            }
        }
        if number % TIMES == 0 {
            let world = judge.world.load_full();
            world.ground().sweep();
            judge.codes.iter().for_each(|codes| codes.sweep(&world));
        }
    }
}
