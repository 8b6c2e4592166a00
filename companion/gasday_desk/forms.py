"""The fields of each call after its moment; what a user's party fills in has no field."""

FIELDS = {
    "nominate": ("contract", "package", "origin", "destination", "quantity"),
    "respond": ("line", "end", "quantity"),
    "post": ("element", "capacity"),
    "freeze": (), "settle": (), "skip": (),
    "publish": ("round",), "declare": ("round",),
    "waive": ("line",),
}
OF_PARTIES = ("nominate", "respond")
