"""The helpers as the models of checks/ know them: what asks the board has its line here and nowhere else in checks/."""

# Their names, from number 1 on.
HELPERS = ["board_get", "board_swap", "board_add", "board_cas", "board_copy"]
HELPERS += ["send", "send_row", "sway", "honest", "sign_order", "pass_on"]

# The requests for one word, which board_WORD makes: what the word becomes by what it was and the numbers behind the slot.
REQUESTS = {
    "get": lambda old: old,
    "swap": lambda old, value: value,
    "add": lambda old, value: (old + value) % 2**64,
    "cas": lambda old, expected, new: new if old == expected else old,
}


def numbers(request):
    """How many numbers a request for one word has behind the slot."""
    return REQUESTS[request].__code__.co_argcount - 1
