//! night ORDER BOOK FULLER: the Moon's record ends at 02:10, and at 02:13 a fuller book comes. Two frames for each minute.
use belfrywool::*;
use std::{env::args, error::Error, fs::read};
const MINUTE: u64 = 60_000;
const TWO: Moment = Moment(411_357_600_000); // 1963-01-14T02:00
fn show(pane: &Pane, moment: Moment) -> Result<(), Refusal> {
    let second = moment.0 / 1000 % 86_400;
    print!("{:02}:{:02}:{:02} ", second / 3600, second / 60 % 60, second % 60);
    match pane.frame(moment) {
        Frame::Current(position) => println!("{:10.1} km", length(&position)?),
        frame => println!("       --- km  {}", frame.meaning()),
    }
    Ok(())
}

fn main() -> Result<(), Box<dyn Error>> {
    let words: Vec<String> = args().collect();
    let [_, order, first, fuller] = &words[..] else { return Err("use: night ORDER BOOK FULLER".into()) };
    let (text, first, fuller) = (read(order)?, read(first)?, read(fuller)?);
    if !environment().is_as_proved() {
        return Err("the floating-point environment is not that of the proofs".into());
    }
    let order = Order::of_bytes(&text).ok_or("an order has 120 or 144 bytes")?;
    let (mut book, fuller, mut pane) = (Book::checked(&first)?, Book::checked(&fuller)?, Pane::default());
    let mut now = inject(book, &order.setting, &order.injection)?;
    let mut run = Run { h: order.h, target: TWO, budget: 1000, guesses: Guesses::default() };
    while run.target <= order.target {
        let answer = fly(book, &order.setting, &now, &run);
        if pane.feed(&answer)? == Fed::Unchanged {
            println!("         {}", answer.outcome.meaning());
        }
        show(&pane, Moment(run.target.0 - MINUTE / 2))?;
        show(&pane, run.target)?;
        if run.target == TWO.plus(13 * MINUTE) && book_holds(book, fuller)? == Holds::Every {
            book = fuller;
        }
        (now, run) = (answer.state, Run { target: run.target.plus(MINUTE), guesses: answer.guesses, ..run });
    }
    Ok(())
}
