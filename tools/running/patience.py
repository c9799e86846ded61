"""How long a check waits for what must come."""

LIMIT = 120  # seconds that anything may take, on a machine that has much else to do
