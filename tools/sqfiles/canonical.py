"""The canonical text of a program, as `sq fmt` writes it."""
from sqfiles.programs import LEVEL_OF, Assign, Blocks, Call, Chain, Choice, Length, Local, Tunable, Unary, Use

INDENT = "  "


def program_text(program):
    return "".join(f"{line}\n" for variant in program.variants for line in variant_lines(variant))


def variant_lines(variant):
    params = ", ".join(
        f"{one.mode.text} {one.elem.text} {one.name.text}" + bracketed(extent.text for extent in one.extents)
        for one in variant.params
    )
    yield f"void task {variant.name.text}::{variant.kind.text}({params}) {{"
    for one in variant.declared:
        yield INDENT + declaration_text(one)
    yield from indented(variant.body)
    yield "}"


def bracketed(texts):
    return "".join(f"[{text}]" for text in texts)


def declaration_text(one):
    if isinstance(one, Tunable):
        return f"tunable int {one.name.text}{'[]' if one.is_list else ''};"
    if isinstance(one, Local):
        return f"local {one.elem.text} {one.name.text}{bracketed(map(text_of, one.dims))};"
    assert isinstance(one, Blocks)
    rest = [text_of(size) for size in one.sizes] or [token.text for token in one.lists]
    return f"blkset {one.name.text} = {one.how.text}({', '.join([one.array.text, *rest])});"


def indented(statements):
    for statement in statements:
        for line in statement_lines(statement):
            yield INDENT + line


def statement_lines(statement):
    if isinstance(statement, Call):
        args = ", ".join(arg.name.text + bracketed(map(text_of, arg.indices)) for arg in statement.args)
        yield f"{statement.task.text}({args});"
    elif isinstance(statement, Assign):
        yield f"{text_of(statement.target)} {statement.sign.text} {text_of(statement.value)};"
    elif statement.word.text == "if":
        yield f"if ({text_of(statement.condition)}) {{"
        yield from indented(statement.then)
        if statement.other:
            yield "} else {"
            yield from indented(statement.other)
        yield "}"
    else:
        yield head_text(statement) + " {"
        yield from indented(statement.body)
        yield "}"


def head_text(loop):
    """Of a map or a `for`, without its brace."""
    if loop.word.text == "for":
        first, bound = text_of(loop.first), text_of(loop.bound)
        name, compared, stepped = loop.name.text, loop.compared.text, loop.stepped.text
        return f"for (int {name} = {first}; {compared} < {bound}; {stepped}++)"
    ranges = ", ".join(f"int {one.name.text} = 0 to {text_of(one.bound)}" for one in loop.ranges)
    reduced = f" reduce ({loop.operator.text}, {loop.array.text})" if loop.operator else ""
    return f"{loop.word.text} ({ranges}){reduced}"


def text_of(expression):
    if isinstance(expression, Use):
        return expression.name.text + bracketed(map(text_of, expression.indices))
    if isinstance(expression, Length):
        return f"len({expression.list.text})"
    if isinstance(expression, Unary):
        inside = text_of(expression.operand)
        return expression.sign.text + (f"({inside})" if isinstance(expression.operand, Chain) else inside)
    if isinstance(expression, Choice):
        return f"{expression.word.text}({text_of(expression.left)}, {text_of(expression.right)})"
    if isinstance(expression, Chain):
        return chain_text(expression)
    return str(expression.value)


def chain_text(chain):
    level = LEVEL_OF[chain.signs[0].text]
    texts = []
    for operand in chain.operands:
        tight = not isinstance(operand, Chain) or LEVEL_OF[operand.signs[0].text] > level
        texts.append(text_of(operand) if tight else f"({text_of(operand)})")
    return texts[0] + "".join(f" {sign.text} {text}" for sign, text in zip(chain.signs, texts[1:]))
