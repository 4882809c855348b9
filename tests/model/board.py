"""A broadcast buffer: all that was transmitted, and how far each receiver has seen it."""
from .ring import check_message, placed


class Board:
    def __init__(self, capacity, start=0):
        self.capacity, self.latest, self.tail = capacity, start, start
        self.sent = {}  # by place: type id, body, end
        self.padded = {}  # by the place of padding: the place of the record after it

    def transmit(self, type_id, body):
        check_message(type_id, len(body), self.capacity)
        place, end = placed(self.capacity, self.tail, len(body))
        if place > self.tail:
            self.padded[self.tail] = place
        self.sent[place] = (type_id, bytes(body), end)
        self.latest, self.tail = place, end


class Receiver:
    """It begins with the latest record."""

    def __init__(self, board):
        self.board, self.place, self.lapped = board, board.latest, 0

    def receive(self):
        """None, the count of laps, or (type id, body, place)."""
        board = self.board
        if board.tail <= self.place:
            return None
        place = self.place
        # The intent is the tail, since no transmission is under way.
        if board.tail < place + board.capacity:
            place = board.padded.get(place, place)
        if board.tail >= place + board.capacity:
            self.lapped += 1
            self.place = board.latest
            return self.lapped
        type_id, body, self.place = board.sent[place]
        return type_id, body, place
