# Made by tests/make_tables.py of the program's help of `day`: change that, and not this file.
"""What each refusal of a call says."""

REFUSALS = {
    "DayClosed": "the moment lies behind the received time of all five cycles",
    "UnknownContract": "there is no contract of that name",
    "NotShipper": "the party isn't the contract's shipper",
    "OverContract": "the contract's lines would be nominated more than its quantity",
    "TooManyLines": "the 20,001st line of the gas day",
    "TooManyEvents": "the history has 1,000,000 events, and the book takes no more",
    "AllSettled": "all five cycles are over",
    "Frozen": "the cycle is frozen",
    "UnknownLine": "there is no such line, or none of its nominations is for this cycle or a former one",
    "NotOperator": "the party isn't the operator of that end",
    "TooEarly": "the moment lies before the cycle's confirmation time, which calendar tells",
    "NotFrozen": "the cycle isn't frozen",
    "StaleRound": "the round isn't the current one, which is {}",
    "Certificate": "the schedule with its prices doesn't pass ({})",
    "OtherQuestion": "the certificate is of another question than the frozen one",
    "NoCutProof": "the set is no cut ({})",
    "NoCut": "no cut was declared in this cycle",
    "BoardTaken": "somebody else posted for this cycle (number 6)",
    "UnknownEnd": "an end is no point and no pool",
    "WrongEnd": "gas would come from a delivery point, or go to a receipt point",
    "SameEnd": "both ends are the same",
    "NoRoute": "a segment would be passed against its direction",
    "UnknownElement": "no element has that name",
    "IsPool": "a pool has no capacity",
}
