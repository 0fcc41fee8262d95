"""Conversions of values that the profile doesn't make by itself (6.3.1)."""


from fshell_tools.adapt.bind.value_texts import Value, number
from fshell_tools.adapt.common import c_types
from fshell_tools.adapt.common.c_types import Int
from fshell_tools.adapt.write.component import Component


class Conversions(Component):
    """Values as targets have them."""

    @staticmethod
    def truth(value: Value) -> Value:
        """The value as a `bool` (6.3.1.2)."""
        if value.truth:
            return value
        return Value(f"{value.within(6)} != 0", c_types.INT, 6, truth=True, calls=value.calls)

    def converted(self, value: Value, kind: Int) -> Value:
        """The value for a target of the kind; the profile converts by itself what is neither `bool` nor a bit-field."""
        if kind.width and not kind.boolean:
            return self.cut_to(value, kind)
        return self.truth(value) if kind.boolean else value

    @staticmethod
    def cut_to(value: Value, kind: Int) -> Value:
        """The value as a bit-field has it: modulo 2^width (6.7.2.1p10)."""
        known = number(value)
        if known is not None and c_types.fit(known, kind) == known:
            return value
        mask, sign = (1 << kind.width) - 1, 1 << (kind.width - 1)
        text = f"{value.within(6)} & {hex(mask)}"
        if kind.below_zero:
            text = (
                f"(int) (({text} ^ {hex(sign)}) - {hex(sign)})"
                if value.kind.bits > 32
                else f"(int) (({text}) ^ {hex(sign)}) - {sign}"
            )
        return Value(text, c_types.INT, 0, calls=value.calls)
