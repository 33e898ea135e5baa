"""Pays 30 from account 0 to account 1, and settles what waits there: each call depends on the one before."""
from rococo import Client

with Client("examples/bank.rcw", "examples/bank.toml", coord=15, state="settle.state") as bank:
    (had,) = bank.call("pay", 0, 1, 30)
    print("paid 30" if had >= 30 else f"refused: there were {had}")
    (waits,) = bank.call("waiting", 1)
    bank.call("settle", 1, waits)
    print(f"settled {waits}")
