"""The tokens of a text, one at a time."""
import re

from .tree import Fault

GAP = re.compile(r'(?:[ \t\r\n]|//[^\n]*)*')
WORD = re.compile(r'[A-Za-z0-9_$.]+')
NAME = re.compile(r'[0-9]+|[A-Za-z$._-][A-Za-z0-9$._-]*')
HEX = '0123456789abcdefABCDEF'
CLOSES = {'(': ')', '[': ']', '{': '}', '<': '>'}


def end_of_string(text, at):
    """The index behind the string whose quote stands there."""
    at += 1
    while at < len(text):
        if text[at] == '"':
            return at + 1
        if text[at] == '\n':
            raise Fault(at, "the string isn't closed")
        if text[at] != '\\':
            at += 1
            continue
        at = end_of_escape(text, at + 1)
    raise Fault(len(text), "the string isn't closed")


def end_of_escape(text, at):
    """The index behind the escape whose first character behind the backslash stands there."""
    for number in range(2):
        if at + number == len(text):
            raise Fault(len(text), "the string isn't closed")
        letter = text[at + number]
        if number == 0 and letter in '"\\nt':
            return at + 1
        if letter not in HEX:
            raise Fault(at + number, 'no escape: wanted a backslash, a quote, n, t or two hexadecimal digits')
    return at + 2


def end_of_group(text, at):
    """The index behind the group whose `<` stands there: brackets and strings in it are whole, and neither `->` nor `>=` closes it."""
    open_ones = ['<']
    at += 1
    while at < len(text):
        letter = text[at]
        if letter == '"':
            at = end_of_string(text, at)
            continue
        if text.startswith('->', at):
            at += 2
            continue
        if letter in '([{<':
            open_ones.append(letter)
        elif letter in ')]}' or letter == '>' and not text.startswith('>=', at):
            if CLOSES[open_ones.pop()] != letter:
                raise Fault(at, "this bracket doesn't close the last one that was opened")
            if not open_ones:
                return at + 1
        at += 1
    raise Fault(len(text), "the group isn't closed")


class Token:
    """A token: its sort, and where it begins and ends. The sort is 'word', 'string', 'group', '->', a sign (of a name) or the character itself; at the end it is ''."""

    __slots__ = ('sort', 'start', 'end')

    def __init__(self, sort, start, end):
        self.sort, self.start, self.end = sort, start, end


def token_at(text, at):
    """The first token from there on."""
    at = GAP.match(text, at).end()
    if at == len(text):
        return Token('', at, at)
    letter = text[at]
    if word := WORD.match(text, at):
        return Token('loc' if word.group() == 'loc' else 'word', at, word.end())
    if letter in '%^@#!':
        name = NAME.match(text, at + 1)
        if not name and letter in '%^':
            raise Fault(at, "this character can't stand here")
        return Token(letter, at, name.end() if name else at + 1)
    if letter == '"':
        return Token('string', at, end_of_string(text, at))
    if letter == '<':
        return Token('group', at, end_of_group(text, at))
    if text.startswith('->', at):
        return Token('->', at, at + 2)
    if letter in '()[]{},:=-+*?|':
        return Token(letter, at, at + 1)
    raise Fault(at, "this character can't stand here")
