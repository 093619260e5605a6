"""The questions about prefixes of `dadofennel.ahocorasick`, beside a tree of dictionaries, and how much memory they take."""
import os
import random
import tracemalloc
import unittest

import dadofennel.ahocorasick as ours
from dadofennel._trie import Trie, at_least, at_most, exactly

CASES = int(os.environ.get("CASES", "3000"))


class Tree:
    """The definition: a node has the nodes one character further, in the order in which they came, and under `None` its word."""

    def __init__(self):
        self.root = {}

    def add(self, word):
        node = self.root
        for character in word:
            node = node.setdefault(character, {})
        node[None] = word

    def remove(self, word):
        path, node = [], self.root
        for character in word:
            path.append((node, character))
            node = node[character]
        del node[None]
        while path and not node:
            node, character = path.pop()
            del node[character]

    def depth(self, word):
        node = self.root
        for depth, character in enumerate(word):
            if character not in node:
                return depth
            node = node[character]
        return len(word)

    def nodes(self):
        def count(node):
            return 1 + sum(count(child) for character, child in node.items() if character is not None)
        return count(self.root)

    def words(self, pattern, wildcard, takes):
        """The words that a pattern takes, each node's own first, and then those of the nodes below, the one that came last first."""
        letters = list(pattern)

        def below(node, depth):
            if None in node and takes(depth, len(letters)):
                yield node[None]
            for character, child in reversed([it for it in node.items() if it[0] is not None]):
                further = depth >= len(letters)
                if takes is at_least if further else letters[depth] in (character, wildcard):
                    yield from below(child, depth + 1)

        return list(below(self.root, 0))


class Random(unittest.TestCase):
    def test_like_the_tree(self):
        for seed in range(CASES):
            rng = random.Random(seed)
            alphabet, as_bytes = rng.choice(["ab", "abc", "a\0é", "aé€", "a😀\udc00"]), rng.random() < 0.3

            def word(least, most):
                text = "".join(rng.choice(alphabet) for _ in range(rng.randint(least, most)))
                return text.encode("utf-8", "surrogatepass") if as_bytes else text

            words = list(dict.fromkeys(word(1, 5) for _ in range(rng.randrange(8))))
            trie, tree = Trie(words), Tree()
            for it in words:
                tree.add(it)
            for _ in range(rng.randrange(25)):
                self.step(rng, trie, tree, words, word, seed)

    def step(self, rng, trie, tree, words, word, seed):
        call = rng.randrange(5)
        if call == 0:
            new = word(1, 5)
            if new not in words:
                words.append(new), trie.add(new), tree.add(new)
        elif call == 1 and words:
            gone = rng.choice(words)
            words.remove(gone), trie.remove(gone), tree.remove(gone)
        elif call == 2:
            prefix = word(0, 6)
            self.assertEqual(trie.has(prefix), not prefix or any(it.startswith(prefix) for it in words), seed)
            self.assertEqual((trie.depth(prefix), trie.nodes()), (tree.depth(prefix), tree.nodes()), seed)
        else:
            pattern, wildcard = word(0, 4), rng.choice([None, word(1, 1)[:1]])
            for takes in (exactly, at_least, at_most):
                told = list(trie.words(pattern, wildcard, takes))
                self.assertEqual(told, tree.words(pattern, wildcard[0] if wildcard else None, takes), (seed, words, pattern, wildcard))


class Memory(unittest.TestCase):
    def test_of_the_first_question(self):
        """It takes some bytes for each word: a pointer and a number."""
        rng = random.Random(5)
        words = ["".join(rng.choice("etaoinshrdlu") for _ in range(rng.randint(6, 14))) for _ in range(50000)]
        automaton = ours.Automaton(ours.STORE_LENGTH)
        for word in words:
            automaton.add_word(word)
        tracemalloc.start()
        self.addCleanup(tracemalloc.stop)
        self.assertTrue(automaton.match(words[7][:3]))
        held, most = tracemalloc.get_traced_memory()
        self.assertLess(held, 20 * len(words))
        self.assertLess(most, 80 * len(words))
        self.assertEqual(sorted(automaton.keys(words[7][:3])), sorted({it for it in words if it.startswith(words[7][:3])}))


if __name__ == "__main__":
    unittest.main()
