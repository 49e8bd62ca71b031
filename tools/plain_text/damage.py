"""Texts that are cut, or changed in few places."""
import re

from .names import meaning_of_key

TOKENS = re.compile(r'\s+|//[^\n]*|"(?:[^"\\\n]|\\.)*"|[%^@#!]?[\w$.-]+|->|.', re.S)
NAMES = [re.compile(it) for it in (r'%[\w$.-]+', r'\^[\w$.-]+', r'(?<=[{,])\s*(?:[\w$.]+|"(?:[^"\\\n]|\\.)*")(?=\s*[=,}])', r'#\d+', r'(?<=:)\d+', r'(?<=[(,])\s*\w+(?=[,)])')]
KEY = re.compile(r'(?<=[{,])\s*([\w$.]+|"(?:[^"\\\n]|\\[\\"nt]|\\[0-9a-fA-F]{2})*")(?=\s*[=,}])')
BYTES = '%^@#!"\\(){}[]<>,:=-+*?|/ \n\t\r09afgzZ_$.;~\x00\x7f\xc3\xff'
BRACKETS = '()[]{}<>'


def drop(rng, text, at):
    return text[:at] + text[at + rng.randrange(1, 4):]


def double(rng, text, at):
    return text[:at + 1] + text[at:]


def exchange(rng, text, at):
    other = rng.randrange(len(text))
    at, other = min(at, other), max(at, other)
    return text if at == other else text[:at] + text[other] + text[at + 1:other] + text[at] + text[other + 1:]


def replace(rng, text, at):
    return text[:at] + rng.choice(BYTES) + text[at + 1:]


def insert(rng, text, at):
    return text[:at] + rng.choice(BYTES) + text[at:]


def cut(rng, text, at):
    return text[:at]


def move_token(rng, text, at):
    tokens = TOKENS.findall(text)
    it = tokens.pop(rng.randrange(len(tokens)))
    tokens.insert(rng.randrange(len(tokens) + 1), it)
    return ''.join(tokens)


def drop_token(rng, text, at):
    tokens = TOKENS.findall(text)
    del tokens[rng.randrange(len(tokens))]
    return ''.join(tokens)


def exchange_tokens(rng, text, at):
    tokens = TOKENS.findall(text)
    one, other = rng.randrange(len(tokens)), rng.randrange(len(tokens))
    tokens[one], tokens[other] = tokens[other], tokens[one]
    return ''.join(tokens)


def copy_token(rng, text, at):
    """Puts one token in the place of another of its first character's sort, if there is one: names and types that don't fit."""
    tokens = TOKENS.findall(text)
    one = rng.randrange(len(tokens))
    like = [it for it in tokens if it[:1] == tokens[one][:1] or it[:1].isalnum() and tokens[one][:1].isalnum()]
    tokens[one] = rng.choice(like)
    return ''.join(tokens)


def copy_name(rng, text, at):
    """Puts one name, key, number or index in the place of another of its sort: what is defined twice, or not at all, and numbers that don't fit."""
    found = list(rng.choice(NAMES).finditer(text))
    if not found:
        return text
    one, other = rng.choice(found), rng.choice(found)
    return text[:one.start()] + other.group() + text[one.end():]


def spell_key_again(rng, text, at):
    """Puts another spelling of a key in front of it: in quotes, with some of its bytes as escapes."""
    found = list(KEY.finditer(text))
    if not found:
        return text
    one = rng.choice(found)
    spelled = (rng.choice([f'\\{ord(it):02x}', f'\\{ord(it):02X}', it if it.isalnum() else f'\\{ord(it):02x}']) for it in meaning_of_key(one.group(1)))
    return f'{text[:one.start(1)]}"{"".join(spelled)}", {text[one.start(1):]}'


def empty(rng, text, at):
    """Drops what stands between two marks."""
    found = re.compile(r'[^,)}\]]*').match(text, min((it for it in (text.find(mark, at) for mark in '=(,:[<') if it >= 0), default=at) + 1)
    return text[:found.start()] + text[found.end():] if found else text


def swap_bracket(rng, text, at):
    places = [place for place, letter in enumerate(text) if letter in BRACKETS]
    if not places:
        return text
    at = rng.choice(places)
    return text[:at] + rng.choice(BRACKETS) + text[at + 1:]


WAYS = [drop, double, exchange, replace, insert, cut, move_token, drop_token, exchange_tokens, copy_token, copy_name, copy_name, copy_name, copy_name, empty, empty, swap_bracket,
        exchange_tokens, drop_token, spell_key_again]


def damaged(rng, text):
    """The text with one, two or three changes."""
    for _ in range(rng.choice([1, 1, 1, 2, 3])):
        if text:
            text = rng.choice(WAYS)(rng, text, rng.randrange(len(text)))
    return text
