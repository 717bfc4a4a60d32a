/* The module, and what it takes from PyYAML. Where an import fails, another one begins anew.
 *
 * The import of the module makes types alone: CPython 3.13 runs that in the main interpreter first, also for another one, and frees
 * tuples of one in the other if a module of Python is imported there. */
#include "loader.h"

struct pyyaml its;

/* Puts an object where there may be an earlier one; -1 where it is NULL, which is an error that is set. */
static int put(PyObject **place, PyObject *object)
{
    PyObject *old = *place;

    *place = object;
    Py_XDECREF(old);
    return object == NULL ? -1 : 0;
}

/* ---- PyYAML ---- */

/* Puts an attribute of a module, and of a class of it where one is named. */
static int import(const char *module, const char *class, const char *name, PyObject **place)
{
    PyObject *at = PyImport_ImportModule(module);

    if (at != NULL && class != NULL && put(&at, PyObject_GetAttrString(at, class)) < 0)
        return -1;
    if (at == NULL)
        return -1;
    put(place, PyObject_GetAttrString(at, name));
    Py_DECREF(at);
    return *place == NULL ? -1 : 0;
}

/* Puts classes by their numbers. */
static int import_kinds(const char *module, const char *const *names, int count, PyObject **places)
{
    int kind;

    for (kind = 0; kind < count; kind++)
        if (names[kind] != NULL && import(module, NULL, names[kind], &places[kind]) < 0)
            return -1;
    return 0;
}

static int import_tokens(void)
{
    static const char *const names[TOKENS] = {
        NULL, "StreamStartToken", "StreamEndToken", "DirectiveToken", "DirectiveToken", "DocumentStartToken",
        "DocumentEndToken", "BlockSequenceStartToken", "BlockMappingStartToken", "BlockEndToken",
        "FlowSequenceStartToken", "FlowSequenceEndToken", "FlowMappingStartToken", "FlowMappingEndToken",
        "BlockEntryToken", "FlowEntryToken", "KeyToken", "ValueToken", "AliasToken", "AnchorToken", "TagToken",
        "ScalarToken",
    };

    return import_kinds("yaml.tokens", names, TOKENS, its.tokens);
}

static int import_events(void)
{
    static const char *const names[EVENTS] = {
        NULL, "StreamStartEvent", "StreamEndEvent", "DocumentStartEvent", "DocumentEndEvent", "AliasEvent",
        "ScalarEvent", "SequenceStartEvent", "SequenceEndEvent", "MappingStartEvent", "MappingEndEvent",
    };

    return import_kinds("yaml.events", names, EVENTS, its.events);
}

static int import_others(void)
{
    const struct {
        const char *module, *class, *name;
        PyObject **place;
    } all[] = {
        {"yaml.error", NULL, "YAMLError", &its.yaml_error},
        {"yaml.reader", NULL, "ReaderError", &its.reader_error},
        {"yaml.scanner", NULL, "ScannerError", &its.scanner_error},
        {"yaml.parser", NULL, "ParserError", &its.parser_error},
        {"yaml.composer", NULL, "ComposerError", &its.composer_error},
        {"yaml.nodes", NULL, "ScalarNode", &its.scalar_node},
        {"yaml.nodes", NULL, "SequenceNode", &its.sequence_node},
        {"yaml.nodes", NULL, "MappingNode", &its.mapping_node},
        {"yaml.resolver", "BaseResolver", "descend_resolver", &its.descend_resolver},
        {"yaml.resolver", "BaseResolver", "ascend_resolver", &its.ascend_resolver},
        {"re", NULL, "Pattern", &its.pattern},
        {"types", NULL, "MethodType", &its.method},
    };
    size_t i;

    for (i = 0; i < LENGTH(all); i++)
        if (import(all[i].module, all[i].class, all[i].name, all[i].place) < 0)
            return -1;
    return 0;
}

/* ---- Constants ---- */

static int make_names(void)
{
    const struct {
        const char *name;
        PyObject **place;
    } all[] = {
        {"read", &its.names.read},
        {"name", &its.names.name},
        {"resolve", &its.names.resolve},
        {"descend_resolver", &its.names.descend_resolver},
        {"ascend_resolver", &its.names.ascend_resolver},
        {"yaml_path_resolvers", &its.names.yaml_path_resolvers},
        {"__func__", &its.names.function},
        {"__self__", &its.names.self},
        {"start_mark", &its.names.start_mark},
        {"end_mark", &its.names.end_mark},
        {"max_depth", &its.names.max_depth},
        {"max_nodes", &its.names.max_nodes},
        {"max_expanded", &its.names.max_expanded},
        {"fixes", &its.names.fixes},
        {"unique_keys", &its.names.unique_keys},
        {"tag", &its.names.tag},
        {"value", &its.names.value},
        {"match", &its.names.match},
        {"yaml_implicit_resolvers", &its.names.yaml_implicit_resolvers},
    };
    size_t i;

    for (i = 0; i < LENGTH(all); i++)
        if (put(all[i].place, PyUnicode_InternFromString(all[i].name)) < 0)
            return -1;
    return 0;
}

static int make_styles(void)
{
    static const char *const styles[STYLES] = {NULL, "", "'", "\"", "|", ">"};
    int i;

    put(&its.styles[YAML_ANY_SCALAR_STYLE], shared(Py_None));
    for (i = YAML_PLAIN_SCALAR_STYLE; i < STYLES; i++)
        if (put(&its.styles[i], PyUnicode_InternFromString(styles[i])) < 0)
            return -1;
    return 0;
}

static int make_implicits(void)
{
    int i;

    for (i = 0; i < 4; i++)
        if (put(&its.implicits[i / 2][i % 2],
                PyTuple_Pack(2, i / 2 ? Py_True : Py_False, i % 2 ? Py_True : Py_False)) < 0)
            return -1;
    return 0;
}

static int find_version(void)
{
    PyObject *version = PySys_GetObject("hexversion"); /* borrowed */
    long number = version == NULL ? 0 : PyLong_AsLong(version);

    its.is_new = number >= 0x03090000;
    return number == -1 && PyErr_Occurred() ? -1 : 0;
}

/* ---- The module ---- */

/* Adds an attribute, which it takes; -1 where it is NULL, which is an error that is set. */
static int add(PyObject *to, const char *name, PyObject *object)
{
    int done = object == NULL ? -1 : PyObject_SetAttrString(to, name, object);

    Py_XDECREF(object);
    return done;
}

static int make_mark_type(void)
{
    PyObject *type = PyType_FromSpec(&mark_spec), *old = (PyObject *)its.mark;

    its.mark = (PyTypeObject *)type;
    Py_XDECREF(old);
    if (type == NULL || add(type, "buffer", shared(Py_None)) < 0)
        return -1;
    return add(type, "pointer", shared(Py_None));
}

/* What a loader's class may set: its bounds, of which None is none, whether it reads libyaml's language alone, and whether the keys
 * of a mapping have to differ. */
static int add_parser_type(PyObject *module)
{
    PyObject *type = PyType_FromSpec(&parser_spec);

    if (type == NULL || add(type, "max_depth", shared(Py_None)) < 0 || add(type, "max_nodes", shared(Py_None)) < 0 ||
        add(type, "max_expanded", shared(Py_None)) < 0 || add(type, "fixes", shared(Py_False)) < 0 ||
        add(type, "unique_keys", shared(Py_False)) < 0) {
        Py_XDECREF(type);
        return -1;
    }
    return add(module, "CParser", type);
}

static int fill(PyObject *module)
{
    if (put(&its.resolve, shared(Py_None)) < 0 || find_version() < 0 || make_styles() < 0 || make_implicits() < 0 || make_names() < 0 || make_mark_type() < 0)
        return -1;
    if (add(module, "Mark", shared((PyObject *)its.mark)) < 0 || add_parser_type(module) < 0)
        return -1;
    return add(module, "libyaml_version", PyUnicode_FromString(yaml_get_version_string()));
}

/* Takes PyYAML's classes, and its `resolve`, if it does what tags.c does in its place, or None. */
static PyObject *know(PyObject *module, PyObject *resolve)
{
    (void)module;
    its.is_known = 0;
    if (import_others() < 0 || import_tokens() < 0 || import_events() < 0)
        return NULL;
    put(&its.resolve, shared(resolve));
    its.is_known = 1;
    return shared(Py_None);
}

static PyMethodDef functions[] = {
    {"know", know, METH_O, "Takes PyYAML's classes, and its `resolve`, which is then done in C, or None."},
    {NULL, NULL, 0, NULL},
};

static int is_filled;
static PyObject *the_module, *its_modules; /* borrowed: the module, and its interpreter's dict of modules */

/* The interpreter ends that has the module; another may begin. */
static void let_go(void *module)
{
    (void)module;
    is_filled = its.is_known = 0;
}

static PyModuleDef definition = {
    PyModuleDef_HEAD_INIT,
    .m_name = "pokhvizi._yaml",
    .m_doc = "PyYAML's CParser with a proved parser and composer.",
    .m_methods = functions,
    .m_free = let_go,
};

/* One interpreter of a process has the module: `its` are that one's. */
PyMODINIT_FUNC PyInit__yaml(void)
{
    PyObject *module;

    if (is_filled) {
        if (PyImport_GetModuleDict() == its_modules) /* no PyState_FindModule: 3.12's reads past its list */
            return shared(the_module);
        PyErr_SetString(PyExc_ImportError, "another interpreter of this process has pokhvizi._yaml");
        return NULL;
    }
    module = PyModule_Create(&definition);
    if (module != NULL && fill(module) < 0)
        Py_CLEAR(module);
    is_filled = module != NULL;
    the_module = module;
    its_modules = PyImport_GetModuleDict();
    return module;
}
