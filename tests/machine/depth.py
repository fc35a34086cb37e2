"""How deep the stack below its caller can become in a function of a shared object, for every size: the frames along its
calls. The C library's functions count as none."""
import re

import capstone

# Of each processor how it is decoded, the bytes of a return address, the instructions that make a frame larger, and
# those that call or jump.
PROCESSORS = {
    "EM_X86_64": ((capstone.CS_ARCH_X86, capstone.CS_MODE_64), 8,
                  r"(?:sub rsp, (?P<by>0x\w+|\d+)|(?P<push>push) .*|mov\w* .*\[rsp - (?P<below>\w+)\], .*)$",
                  r"(?:notrack )?(call|j\w+) (0x\w+)$"),
    "EM_AARCH64": ((capstone.CS_ARCH_ARM64, capstone.CS_MODE_ARM), 0,
                   r"(?:sub sp, sp, #(?P<by>\w+)(?P<push>, lsl #0xc)?|.*\[sp, #-(?P<more>\w+)\]!)$",
                   r"(bl?)(?:\.\w+)? #(0x\w+)$"),
}


class Depths:
    """Bounds of the functions of an object. `again` has those that call themselves, with what each time adds."""

    def __init__(self, image):
        processor, self.back, self.grows, self.goes = PROCESSORS[image.machine]
        self.capstone, self.image = capstone.Cs(*processor), image
        self.starts = sorted(set(image.functions.values()))
        self.known, self.again = {}, {}

    def of(self, at):
        """The bound of the function that has this address. It may call itself, which counts as once."""
        if any(start <= at < end for start, end in self.image.plt):
            return 0
        at = max(start for start in self.starts if start <= at)
        if at not in self.known:
            self.known[at] = 0  # as it calls itself
            self.known[at] = self.bound(at, next((start for start in self.starts if start > at), at + 4096))
        return self.known[at]

    def bound(self, at, end):
        frame = below = 0
        calls, jumps = set(), set()
        for ins in self.capstone.disasm(self.image.code(at, end - at), at):
            text = f"{ins.mnemonic} {ins.op_str}"
            grown, gone = re.match(self.grows, text), re.match(self.goes, text)
            sizes = {name: size for name, size in grown.groupdict().items() if size} if grown else {}
            if "below" in sizes:
                below = max(below, int(sizes["below"], 0))
            elif grown:
                size = int(sizes.get("by") or sizes.get("more") or "8", 0)
                frame += size << 12 * ("lsl" in text)
            elif gone:
                (calls if gone[1] in ("call", "bl") else jumps).add(int(gone[2], 16))
        if at in calls:
            self.again[at] = frame + below + self.back
        return max([frame + below, *(frame + below + self.back + self.of(to) for to in calls),
                    *(self.of(to) for to in jumps if not at <= to < end)])
