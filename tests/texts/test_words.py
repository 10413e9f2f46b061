"""The words of Verilog that are refused."""
import unittest

from .reading import WithTexts

# The keywords of IEEE 1364-2005, Annex B, that are refused (own).
WORDS = """
always assign automatic begin case casex casez cmos deassign default defparam disable edge else end endcase
endfunction endgenerate endprimitive endspecify endtable endtask event for force forever fork function
generate genvar if initial inout integer join large localparam macromodule medium negedge nmos parameter pmos
posedge primitive pull0 pull1 pulldown pullup rcmos real realtime reg release repeat rnmos rpmos rtran
rtranif0 rtranif1 scalared signed small specify specparam strong0 strong1 supply0 supply1 table task time tran
tranif0 tranif1 trireg unsigned uwire vectored wait weak0 weak1 while
""".split()


class Words(WithTexts):
    def test_words_that_are_refused(self) -> None:
        self.assertEqual(len(set(WORDS)), 83)
        for word in WORDS:
            with self.subTest(word):
                self.check_fault(f"module m;\n{word} w;\nendmodule", "3 Unsupported")


if __name__ == "__main__":
    unittest.main()
