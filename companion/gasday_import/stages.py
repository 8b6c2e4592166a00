# Made by tests/make_tables.py of the program's help, its stages and its messages: change that, and not this file.
"""The kinds of rows of each stage of a text, with the titles of the fields behind them."""

STAGES = (
    {
        "segment": "NAME FROM TO CAPACITY",
        "point": "NAME receipt|delivery PLACE OPERATOR CAPACITY",
        "pool": "NAME PLACE OPERATOR",
    },
    {
        "contract": "NAME SHIPPER firm|interruptible QUANTITY ORIGIN DEST",
    },
    {
        "question": "BOOK CYCLE ROUND",
        "day": "DATE ZONE BOOK",
    },
    {
        "capacity": "ELEMENT CAPACITY",
        "carry": "CONTRACT PACKAGE ORIGIN DEST QUANTITY",
    },
    {
        "line": "ORIGIN DEST CLASS FLOOR CEILING",
    },
    {
        "sched": "LINE QUANTITY",
    },
    {
        "price": "ELEMENT LEVEL WORD SPREAD",
    },
    {
        "inside": "place|point|pool NAME",
    },
    {
        "nominate": "MOMENT PARTY CONTRACT PACKAGE ORIGIN DEST QUANTITY",
        "respond": "MOMENT PARTY LINE origin|dest QUANTITY",
        "post": "MOMENT ELEMENT CAPACITY",
        "freeze": "MOMENT",
        "settle": "MOMENT",
        "publish": "MOMENT ROUND",
        "declare": "MOMENT ROUND",
        "waive": "MOMENT LINE",
        "skip": "MOMENT",
        "session": "SLOT PARTY",
        "desk": "MOMENT",
    },
)
SECOND = {
    "contract": "NAME SHIPPER firm|interruptible QUANTITY BAND",
}
