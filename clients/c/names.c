/* The names of kinds, in the order of their numbers. */
#include "forms.h"

static const char *const NAMES[] = {
    "Error", "Whitespace", "NewLine", "CommentSingle", "CommentMulti", "Number", "Id", "StringStart", "StringEnd", "StringLiteral",
    "At", "Colon", "Comma", "Dot", "Ellipsis", "Function", "RoundOpen", "RoundClose", "SquareOpen", "SquareClose", "CurlyOpen", "CurlyClose",
    "Range", "RangeInclusive", "Semicolon", "Underscore", "QuestionMark",
    "Add", "Subtract", "Multiply", "Divide", "Remainder", "Power",
    "Assign", "AddAssign", "SubtractAssign", "MultiplyAssign", "DivideAssign", "RemainderAssign", "PowerAssign",
    "Equal", "NotEqual", "Greater", "GreaterOrEqual", "Less", "LessOrEqual", "Arrow",
    "As", "And", "Break", "Catch", "Continue", "Debug", "Else", "ElseIf", "Export", "False", "Finally", "For", "From", "If", "Import", "In", "Loop",
    "Match", "Not", "Null", "Or", "Return", "Self", "Switch", "Then", "Throw", "True", "Try", "Until", "While", "Yield", "Await", "Const", "Let",
};

const char *kind_name(uint32_t kind) {
    return kind < sizeof NAMES / sizeof NAMES[0] ? NAMES[kind] : NULL;
}
