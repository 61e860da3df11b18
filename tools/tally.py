"""Counts what came out right and what came out wrong."""


class Tally:
    def __init__(self, name):
        self.name, self.right, self.wrong = name, 0, 0

    def count(self, is_right, message):
        """Counts one, and prints the message if it is wrong."""
        if is_right:
            self.right += 1
        else:
            self.wrong += 1
            print(f"WRONG: {message}")

    def compare(self, name, due, got):
        self.count(due == got, f"{name}\ndue: {due}\ngot: {got}")

    def end(self):
        """Prints the counts, and returns the exit status: 0 if something was counted and nothing was wrong."""
        print(f"{self.name}: {self.right} right, {self.wrong} wrong")
        return int(self.wrong > 0 or self.right == 0)
