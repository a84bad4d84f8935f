//! Calls that are to go on: what goes on is made before the ticket is claimed, and goes on if the
//! ticket is won.
use super::{Aim, Case, Judge, Judged, Outcome, Passing, Ruled};
use stir::Call;

/// What comes of a call that is to go on.
#[derive(Debug)]
pub enum Onward<T, E> {
    /// It goes on: this was made of it, and its ticket passed for the first time.
    Goes(T),
    /// It passes but for its ticket, which nobody claimed, and can't go on.
    Stays(E),
    /// It isn't valid, or nothing is said of it.
    Judged(Box<Judged>),
}

impl Judge {
    /// What comes of an INVITE that came at this moment and is to go on. If it breaks no rule,
    /// `made` makes what goes on of it, and of which of its questions were confirmed.
    pub async fn onward<T, E>(
        &self,
        message: &[u8],
        moment: u64,
        made: impl FnOnce(&mut Call, &[bool]) -> Result<T, E>,
    ) -> Onward<T, E> {
        let mut said = self.said(Case { message, moment, aim: Aim::Verdict }).await;
        let made = match &mut said {
            Ok((Ruled { passing: Some(Passing { call, good }), .. }, _)) => made(call, good),
            _ => return Onward::Judged(Box::new(self.came_of(said, moment).await)),
        };
        match made {
            Ok(made) => match self.came_of(said, moment).await {
                Judged { outcome: Outcome::Valid, .. } => Onward::Goes(made),
                judged => Onward::Judged(Box::new(judged)),
            },
            Err(why) => Onward::Stays(why),
        }
    }
}
