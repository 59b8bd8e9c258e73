"""Image text: `run FILE.img`, `dis FILE.img`."""

import readers
from target import MOST_LISTED, Target, cases_of, examples, expect, expect_commands, expect_fault, expect_listing
from target import expect_loaded, expect_run, expect_texts_again, words_of

BEGIN = b"image 1 "
MEMORY = 65536


class Images(Target):
    name = "image"
    tokens = words_of("image.words")

    def seeds(self):
        return examples(".img") + cases_of("image.txt")

    def made(self, draw):
        """Bytes that are drawn, mostly first bytes of instructions of the subset."""
        firsts = [bytes.fromhex(digits) for digits in "c7f8 c6f8 0f01 f0 0f 80 83 ff f7 c1 69".split()]
        content = b"".join(
            draw.choice([draw.choice(firsts), b"", bytes([draw.randrange(256)])]) + draw.randbytes(draw.randrange(7))
            for _ in range(draw.randrange(1, 24))
        )
        base = draw.choice([0, 1, 0x100, 0x1000, 0xFFFF, draw.randrange(65536), draw.getrandbits(32)])
        length = draw.choice([len(content), len(content), draw.randrange(len(content) + 2)])
        return readers.image_text(readers.Image(base, content, length))

    def changed(self, draw, case, others):
        case = super().changed(draw, case, others)
        return case if case.startswith(BEGIN) or draw.randrange(20) == 0 else BEGIN + case[8:]

    def look(self, case, starter):
        name = starter.write("case.img", case)
        if not case.startswith(BEGIN):
            starter.start("dis", name)
            return
        try:
            image = readers.read_image(case)
        except readers.Refused as refused:
            self.look_at_refused(case, name, refused.fault, starter)
            return
        self.look_at_code(case, name, image, starter)
        fault = readers.loading_fault(image, len(image.content), [image.base], MEMORY)
        if fault:
            expect_fault(starter.start("run", name, "--steps", ""), (fault, None))
            return
        expect_loaded(starter, name, image, image.content, MEMORY, image.base + len(image.content))
        if self.is_turn(case, 1, 2):
            expect_run(starter, name)
        if self.is_turn(case, 3, 2):
            expect_commands(starter, name, case)

    def look_at_code(self, case, name, image, starter):
        code = image.content[:image.code_len]
        if image.code_len > len(image.content) or len(code) > MOST_LISTED or image.base + len(code) > 2**32:
            starter.start("dis", name)
            return
        answer = starter.start("dis", name)
        expect(answer.status == 0, "an image that is not listed")
        rows = expect_listing(answer, image.base, code)
        if self.is_turn(case, 0, 4):
            expect_texts_again(starter, rows, image.base)
        if self.is_turn(case, 2, 8):
            starter.again(answer)
