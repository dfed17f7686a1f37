//! What becomes of a booking: confirm and release by the token (here its number), cancel, begin and finish by the number.
use crate::board::Board;
use crate::refusal::{refuse_if, Refusal};
use crate::row::State;

impl Board {
    /// Where the row of a number stands.
    fn place(&self, number: u32) -> Option<usize> {
        self.rows.iter().position(|row| row.number == number)
    }

    /// Where the held row of a token stands.
    fn place_of_token(&self, number: u32) -> Result<usize, Refusal> {
        let place = self.place(number).ok_or(Refusal::Plain(10))?;
        refuse_if(self.rows[place].state != State::Held, 10)?;
        Ok(place)
    }

    /// Where the row of a number stands, if it is in the one state that allows the event.
    fn place_in_state(&self, number: u32, state: State) -> Result<usize, Refusal> {
        let place = self.place(number).ok_or(Refusal::Plain(11))?;
        refuse_if(self.rows[place].state != state, 12)?;
        Ok(place)
    }

    pub fn confirm(&mut self, token: u32) -> Result<(), Refusal> {
        let place = self.place_of_token(token)?;
        self.rows[place].state = State::Confirmed;
        Ok(())
    }

    pub fn release(&mut self, token: u32) -> Result<(), Refusal> {
        let place = self.place_of_token(token)?;
        self.rows.remove(place);
        Ok(())
    }

    pub fn cancel(&mut self, number: u32) -> Result<(), Refusal> {
        let place = self.place_in_state(number, State::Confirmed)?;
        self.rows.remove(place);
        Ok(())
    }

    pub fn begin(&mut self, number: u32) -> Result<(), Refusal> {
        let place = self.place_in_state(number, State::Confirmed)?;
        self.rows[place].state = State::UnderWay;
        Ok(())
    }

    pub fn finish(&mut self, number: u32) -> Result<(), Refusal> {
        let place = self.place_in_state(number, State::UnderWay)?;
        self.rows.remove(place);
        Ok(())
    }
}
