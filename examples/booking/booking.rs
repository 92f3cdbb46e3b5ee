//! Books seats for events. The database is part of this program, and a standing query always contains the free seats.
//!
//! booking.out contains the output. booking.c and booking.py do the same in C and in Python.

use mmdb::{Connection, Error, Result};

/// Two events and their seats.
const SCRIPT: &str = "\
TABLE event (id INT KEY, title TEXT)
TABLE seat (id INT KEY, event INT REF event CASCADE, place TEXT, taken INT)
TABLE booking (id INT KEY, seat INT REF seat, guest TEXT)
INDEX seat_event ON seat (event) TREE
INDEX booking_guest ON booking (guest) HASH
INSERT event (1, 'Hamlet'), (2, 'Faust')
INSERT seat (11, 1, 'A1', 0), (12, 1, 'A2', 0), (13, 1, 'A3', 0), (14, 1, 'A4', 0)
INSERT seat (21, 2, 'B1', 0), (22, 2, 'B2', 0)";
const FREE_SEATS: &str = "SELECT e.title, s.place, s.id FROM event e, seat s \
    WHERE s.event = e.id AND s.taken = 0";

/// Books a seat inside a transaction. Returns whether it was free.
fn book_seat(db: &Connection, booking: i64, seat: i64, guest: &str) -> Result<bool> {
    let mut take = db.prepare_cached("UPDATE seat SET taken = 1 WHERE id = ? AND taken = 0")?;
    if take.execute([seat])? != 1 {
        return Ok(false);
    }
    let mut insert = db.prepare_cached("INSERT booking (?, ?, ?)")?;
    insert.execute((booking, seat, guest))?;
    Ok(true)
}

/// Books all these seats under numbers from `booking` on, or none of them. Returns whether they were free.
fn book_all(db: &mut Connection, booking: i64, seats: &[i64], guest: &str) -> Result<bool> {
    let transaction = db.transaction()?;
    for (number, &seat) in (booking..).zip(seats) {
        if !book_seat(&transaction, number, seat, guest)? {
            return Ok(false); // dropping the transaction rolls it back
        }
    }
    transaction.commit()?;
    Ok(true)
}

/// Books all these seats or none of them, and returns the outcome in words.
fn book(db: &mut Connection, booking: i64, seats: &[i64], guest: &str) -> Result<String> {
    match book_all(db, booking, seats, guest) {
        Ok(true) => Ok("booked".to_owned()),
        Ok(false) => Ok("taken".to_owned()),
        Err(Error::Refused(refusal)) => Ok(format!("error {}", refusal.number())),
        Err(error) => Err(error),
    }
}

/// Books the free seats among these, and returns their number.
fn book_group(db: &mut Connection, booking: i64, seats: &[i64], guest: &str) -> Result<i64> {
    let mut booked = 0;
    let mut transaction = db.transaction()?;
    for &seat in seats {
        let savepoint = transaction.savepoint("before_seat")?;
        if book_seat(&savepoint, booking + booked, seat, guest)? {
            savepoint.commit()?;
            booked += 1;
        }
    }
    transaction.commit()?;
    Ok(booked)
}

/// Cancels a booking. Its seat is free again.
fn cancel(db: &mut Connection, booking: i64) -> Result<()> {
    let transaction = db.transaction()?;
    let seat_of = "SELECT b.seat FROM booking b WHERE b.id = ?";
    let seat: i64 = transaction.query_row(seat_of, [booking], |row| row.get("seat"))?;
    transaction.execute("DELETE booking WHERE id = ?", [booking])?;
    transaction.execute("UPDATE seat SET taken = 0 WHERE id = ?", [seat])?;
    transaction.commit()
}

/// Deletes the bookings of an event, and then the event with its seats. Returns the number of bookings.
fn call_off(db: &mut Connection, event: i64) -> Result<usize> {
    let transaction = db.transaction()?;
    let bookings: Vec<i64> = transaction
        .prepare("SELECT b.id FROM seat s, booking b WHERE b.seat = s.id AND s.event = ?")?
        .query_map([event], |row| row.get("id"))?
        .collect::<Result<_>>()?;
    transaction
        .prepare("DELETE booking WHERE id = ?")?
        .execute_many(bookings.iter().map(|booking| [booking]))?;
    transaction.execute("DELETE event WHERE id = ?", [event])?;
    transaction.commit()?;
    Ok(bookings.len())
}

/// Returns the seats that a guest has booked.
fn seats_of(db: &Connection, guest: &str) -> Result<String> {
    let line = "SELECT s.place FROM booking b, seat s WHERE b.guest = ? AND b.seat = s.id";
    let mut find = db.prepare(line)?;
    let places = find.query([guest])?.map(|row| row.get("place"));
    Ok(places.collect::<Result<Vec<&str>>>()?.join(" "))
}

/// Prints a step, and the seats that are free after it.
fn tell(db: &Connection, step: &str) -> Result<()> {
    let free = db.show("free_seats", |row| {
        let (title, place): (&str, &str) = row.values()?;
        Ok(format!("{title} {place}"))
    })?;
    println!("{step}\n  free: {}", free.join(", "));
    Ok(())
}

fn main() -> Result<()> {
    let db = &mut Connection::open()?;
    db.execute_batch(SCRIPT)?;
    db.watch("free_seats", FREE_SEATS)?;
    tell(db, "The sale begins.")?;
    let ann = book(db, 1, &[11], "Ann")?;
    tell(db, &format!("Ann wants seat 11: {ann}"))?;
    let bob = book(db, 2, &[11], "Bob")?;
    tell(db, &format!("Bob wants seat 11: {bob}"))?;
    let cleo = book_group(db, 2, &[11, 12, 13], "Cleo")?;
    let wish = "Cleo wants what is free of 11, 12 and 13";
    tell(db, &format!("{wish}: {cleo} booked"))?;
    let dan = book(db, 4, &[14, 21, 12], "Dan")?;
    tell(db, &format!("Dan wants all of 14, 21 and 12: {dan}"))?;
    let ohara = book(db, 2, &[21], "O'Hara")?;
    let wish = "O'Hara wants seat 21, under a number in use";
    tell(db, &format!("{wish}: {ohara}"))?;
    cancel(db, 1)?;
    tell(db, "Ann cancels.")?;
    let ohara = book(db, 4, &[11, 21], "O'Hara")?;
    tell(db, &format!("O'Hara wants both 11 and 21: {ohara}"))?;
    for guest in ["Cleo", "O'Hara"] {
        println!("{guest} has {}.", seats_of(db, guest)?);
    }
    let bookings = call_off(db, 1)?;
    tell(db, &format!("Hamlet is called off: {bookings} bookings go"))
}
