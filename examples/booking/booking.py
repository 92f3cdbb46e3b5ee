#!/usr/bin/env python3
"""Books seats for events. The database is part of this program, and a standing query always contains the free seats.

booking.out contains the output. booking.c and booking.rs do the same in C and in Rust.
"""

import mmdb

SCHEMA = """\
TABLE event (id INT KEY, title TEXT)
TABLE seat (id INT KEY, event INT REF event CASCADE, place TEXT, taken INT)
TABLE booking (id INT KEY, seat INT REF seat, guest TEXT)
INDEX seat_event ON seat (event) TREE
INDEX booking_guest ON booking (guest) HASH
"""
FREE_SEATS = "SELECT e.title, s.place, s.id FROM event e, seat s WHERE s.event = e.id AND s.taken = 0"


class SeatTaken(Exception):
    """A seat is taken or does not exist."""


def open_service() -> mmdb.Connection:
    """Returns a database with two events and their seats."""
    connection = mmdb.connect()
    connection.executescript(SCHEMA)
    connection.watch("free_seats", FREE_SEATS)
    with connection:
        connection.executemany("INSERT event (?, ?)", [(1, "Hamlet"), (2, "Faust")])
        seats = [(11, 1, "A1"), (12, 1, "A2"), (13, 1, "A3"), (14, 1, "A4"), (21, 2, "B1"), (22, 2, "B2")]
        connection.executemany("INSERT seat (?, ?, ?, 0)", seats)
    return connection


def book_seat(connection: mmdb.Connection, booking: int, seat: int, guest: str) -> None:
    """Books a seat inside a transaction. Raises SeatTaken if the seat is not free."""
    if connection.execute("UPDATE seat SET taken = 1 WHERE id = ? AND taken = 0", (seat,)).rowcount != 1:
        raise SeatTaken
    connection.execute("INSERT booking (?, ?, ?)", (booking, seat, guest))


def book(connection: mmdb.Connection, booking: int, seats: list[int], guest: str) -> str:
    """Books all these seats under numbers from booking on, or none of them."""
    try:
        with connection:
            for number, seat in enumerate(seats, booking):
                book_seat(connection, number, seat, guest)
    except SeatTaken:
        return "taken"
    except mmdb.IntegrityError as error:
        return f"error {error.number}"
    return "booked"


def book_group(connection: mmdb.Connection, booking: int, seats: list[int], guest: str) -> int:
    """Books the free seats among these, and returns their number."""
    booked = 0
    with connection:
        for seat in seats:
            try:
                with connection.savepoint("before_seat"):
                    book_seat(connection, booking + booked, seat, guest)
                booked += 1
            except SeatTaken:
                pass
    return booked


def cancel(connection: mmdb.Connection, booking: int) -> None:
    """Cancels a booking. Its seat is free again."""
    with connection:
        (seat,) = connection.execute("SELECT b.seat FROM booking b WHERE b.id = ?", (booking,)).fetchone()
        connection.execute("DELETE booking WHERE id = ?", (booking,))
        connection.execute("UPDATE seat SET taken = 0 WHERE id = ?", (seat,))


def call_off(connection: mmdb.Connection, event: int) -> int:
    """Deletes the bookings of an event, and then the event with its seats. Returns the number of bookings."""
    with connection:
        bookings = connection.execute(
            "SELECT b.id FROM seat s, booking b WHERE b.seat = s.id AND s.event = ?", (event,)
        ).fetchall()
        connection.executemany("DELETE booking WHERE id = ?", bookings)
        connection.execute("DELETE event WHERE id = ?", (event,))
    return len(bookings)


def seats_of(connection: mmdb.Connection, guest: str) -> str:
    """Returns the seats that a guest has booked."""
    found = connection.execute("SELECT s.place FROM booking b, seat s WHERE b.guest = ? AND b.seat = s.id", (guest,))
    return " ".join(place for (place,) in found)


def tell(connection: mmdb.Connection, step: str) -> None:
    """Prints a step, and the seats that are free after it."""
    free = ", ".join(f"{title} {place}" for title, place, _ in connection.show("free_seats"))
    print(f"{step}\n  free: {free}")


def main() -> None:
    connection = open_service()
    tell(connection, "The sale begins.")
    tell(connection, "Ann wants seat 11: " + book(connection, 1, [11], "Ann"))
    tell(connection, "Bob wants seat 11: " + book(connection, 2, [11], "Bob"))
    booked = book_group(connection, 2, [11, 12, 13], "Cleo")
    tell(connection, f"Cleo wants what is free of 11, 12 and 13: {booked} booked")
    tell(connection, "Dan wants all of 14, 21 and 12: " + book(connection, 4, [14, 21, 12], "Dan"))
    tell(connection, "O'Hara wants seat 21, under a number in use: " + book(connection, 2, [21], "O'Hara"))
    cancel(connection, 1)
    tell(connection, "Ann cancels.")
    tell(connection, "O'Hara wants both 11 and 21: " + book(connection, 4, [11, 21], "O'Hara"))
    for guest in ("Cleo", "O'Hara"):
        print(f"{guest} has {seats_of(connection, guest)}.")
    tell(connection, f"Hamlet is called off: {call_off(connection, 1)} bookings go")
    connection.close()


if __name__ == "__main__":
    main()
