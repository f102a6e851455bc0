/*
 * Strangers' images in nginx.
 *
 *   geyserpan_access FILE [turns=N];           a rule over requests: it reads the request's line and headers
 *   geyserpan_body FILE [turns=N] [output=N];  a filter over bodies: it reads the answer's body and puts out another
 *
 * An image is verified where the configuration is read, so that `nginx -t` and a reload refuse a bad one, and the
 * workers go on as they were.  A worker waits for no run longer than its turns take.
 */

#include <ngx_config.h>
#include <ngx_core.h>
#include <ngx_http.h>

#include <geyserpan.h>


#define NGX_HTTP_GEYSERPAN_TURNS    100000
#define NGX_HTTP_GEYSERPAN_OUTPUT   (16 << 20)
#define NGX_HTTP_GEYSERPAN_LONGEST  (4 << 20)
#define NGX_HTTP_GEYSERPAN_ROOM     8192


typedef struct {
    geyserpan_image     image;
    geyserpan_engine    engine;     /* of the runs that end within a call */
    geyserpan_terms     terms;
    ngx_str_t           name;
} ngx_http_geyserpan_rule_t;


typedef struct {
    ngx_http_geyserpan_rule_t  *access;
    ngx_http_geyserpan_rule_t  *body;
} ngx_http_geyserpan_loc_conf_t;


typedef struct {
    geyserpan_engine    engine;
    ngx_chain_t        *free;
    ngx_chain_t        *busy;
    ngx_chain_t        *out;
    ngx_chain_t       **last_out;
    ngx_buf_t          *room;
    unsigned            ended:1;
} ngx_http_geyserpan_ctx_t;


static ngx_int_t ngx_http_geyserpan_init(ngx_conf_t *cf);
static void *ngx_http_geyserpan_create_loc_conf(ngx_conf_t *cf);
static char *ngx_http_geyserpan_merge_loc_conf(ngx_conf_t *cf, void *parent, void *child);
static char *ngx_http_geyserpan_rule(ngx_conf_t *cf, ngx_command_t *cmd, void *conf);


static ngx_command_t  ngx_http_geyserpan_commands[] = {

    { ngx_string("geyserpan_access"),
      NGX_HTTP_MAIN_CONF|NGX_HTTP_SRV_CONF|NGX_HTTP_LOC_CONF|NGX_CONF_TAKE12,
      ngx_http_geyserpan_rule,
      NGX_HTTP_LOC_CONF_OFFSET,
      offsetof(ngx_http_geyserpan_loc_conf_t, access),
      NULL },

    { ngx_string("geyserpan_body"),
      NGX_HTTP_MAIN_CONF|NGX_HTTP_SRV_CONF|NGX_HTTP_LOC_CONF|NGX_CONF_TAKE123,
      ngx_http_geyserpan_rule,
      NGX_HTTP_LOC_CONF_OFFSET,
      offsetof(ngx_http_geyserpan_loc_conf_t, body),
      NULL },

      ngx_null_command
};


static ngx_http_module_t  ngx_http_geyserpan_module_ctx = {
    NULL,                                  /* preconfiguration */
    ngx_http_geyserpan_init,               /* postconfiguration */

    NULL,                                  /* create main configuration */
    NULL,                                  /* init main configuration */

    NULL,                                  /* create server configuration */
    NULL,                                  /* merge server configuration */

    ngx_http_geyserpan_create_loc_conf,    /* create location configuration */
    ngx_http_geyserpan_merge_loc_conf      /* merge location configuration */
};


ngx_module_t  ngx_http_geyserpan_module = {
    NGX_MODULE_V1,
    &ngx_http_geyserpan_module_ctx,        /* module context */
    ngx_http_geyserpan_commands,           /* module directives */
    NGX_HTTP_MODULE,                       /* module type */
    NULL,                                  /* init master */
    NULL,                                  /* init module */
    NULL,                                  /* init process */
    NULL,                                  /* init thread */
    NULL,                                  /* exit thread */
    NULL,                                  /* exit process */
    NULL,                                  /* exit master */
    NGX_MODULE_V1_PADDING
};


static ngx_http_output_header_filter_pt  ngx_http_next_header_filter;
static ngx_http_output_body_filter_pt    ngx_http_next_body_filter;


/* ---- images, where the configuration is read ---- */


static void
ngx_http_geyserpan_cleanup_rule(void *data)
{
    ngx_http_geyserpan_rule_t  *rule = data;

    if (rule->engine.at) {
        geyserpan_engine_free(rule->engine);
    }

    if (rule->image.at) {
        geyserpan_image_free(rule->image);
    }
}


/* The bytes of a file, of which no image has more than the longest; len is -1 where there are none. */

static ngx_str_t
ngx_http_geyserpan_read(ngx_conf_t *cf, ngx_str_t *name)
{
    ssize_t    n;
    ngx_str_t  bytes = { (size_t) -1, NULL };
    ngx_file_t file;

    ngx_memzero(&file, sizeof(ngx_file_t));
    file.name = *name;
    file.log = cf->log;
    file.fd = ngx_open_file(name->data, NGX_FILE_RDONLY, NGX_FILE_OPEN, 0);

    if (file.fd == NGX_INVALID_FILE) {
        ngx_conf_log_error(NGX_LOG_EMERG, cf, ngx_errno, ngx_open_file_n " \"%V\" failed", name);
        return bytes;
    }

    bytes.data = ngx_pnalloc(cf->temp_pool, NGX_HTTP_GEYSERPAN_LONGEST + 1);
    n = bytes.data ? ngx_read_file(&file, bytes.data, NGX_HTTP_GEYSERPAN_LONGEST + 1, 0) : NGX_ERROR;

    if (n != NGX_ERROR) {
        bytes.len = n;
    }

    if (ngx_close_file(file.fd) == NGX_FILE_ERROR) {
        ngx_log_error(NGX_LOG_ALERT, cf->log, ngx_errno, ngx_close_file_n " \"%V\" failed", name);
    }

    return bytes;
}


/* Reads turns=N and output=N. */

static char *
ngx_http_geyserpan_terms(ngx_conf_t *cf, geyserpan_terms *terms)
{
    off_t        number;
    uint64_t    *of;
    ngx_str_t   *value = cf->args->elts;
    ngx_uint_t   i, front;

    for (i = 2; i < cf->args->nelts; i++) {

        if (ngx_strncmp(value[i].data, "turns=", 6) == 0) {
            of = &terms->turns;
            front = 6;

        } else if (ngx_strncmp(value[i].data, "output=", 7) == 0) {
            of = &terms->output;
            front = 7;

        } else {
            return "takes turns=N and output=N";
        }

        number = ngx_atoof(value[i].data + front, value[i].len - front);

        if (number == NGX_ERROR) {
            return "takes turns=N and output=N";
        }

        *of = number;
    }

    return NGX_CONF_OK;
}


/* Verifies an image, and tells what is wrong with it. */

static char *
ngx_http_geyserpan_open(ngx_conf_t *cf, ngx_http_geyserpan_rule_t *rule, ngx_str_t *bytes)
{
    size_t           len;
    uint32_t         status;
    uint8_t          text[96];
    geyserpan_why    why = { 0, 0, 0 };
    geyserpan_facts  facts;

    status = geyserpan_image_new(&rule->image);

    if (status == GEYSERPAN_OK) {
        status = geyserpan_engine_new(&rule->engine);
    }

    if (status == GEYSERPAN_OK) {
        status = geyserpan_open(&rule->image, bytes->data, bytes->len, &rule->terms, &why);
    }

    if (status == GEYSERPAN_OK) {
        return NGX_CONF_OK;
    }

    len = geyserpan_why_text(status, &why, text, sizeof(text));

    if (status == GEYSERPAN_TURNS && geyserpan_check(bytes->data, bytes->len, &facts, &why) == GEYSERPAN_OK) {
        len = geyserpan_terms_text(status, &facts, &rule->terms, text, sizeof(text));
    }

    ngx_conf_log_error(NGX_LOG_EMERG, cf, 0, "image \"%V\": %*s", &rule->name, len, text);
    return NGX_CONF_ERROR;
}


static char *
ngx_http_geyserpan_rule(ngx_conf_t *cf, ngx_command_t *cmd, void *conf)
{
    char                        *rv;
    ngx_str_t                   *value = cf->args->elts;
    ngx_str_t                    bytes;
    ngx_pool_cleanup_t          *cleanup;
    ngx_http_geyserpan_rule_t   *rule;
    ngx_http_geyserpan_rule_t  **place;

    place = (ngx_http_geyserpan_rule_t **) ((u_char *) conf + cmd->offset);

    if (*place != NGX_CONF_UNSET_PTR) {
        return "is duplicate";
    }

    rule = ngx_pcalloc(cf->pool, sizeof(ngx_http_geyserpan_rule_t));
    cleanup = ngx_pool_cleanup_add(cf->pool, 0);

    if (rule == NULL || cleanup == NULL) {
        return NGX_CONF_ERROR;
    }

    cleanup->handler = ngx_http_geyserpan_cleanup_rule;
    cleanup->data = rule;

    rule->name = value[1];
    rule->terms = (geyserpan_terms) { NGX_HTTP_GEYSERPAN_TURNS, NGX_HTTP_GEYSERPAN_OUTPUT, GEYSERPAN_ALL_SERVICES, 8 };

    rv = ngx_http_geyserpan_terms(cf, &rule->terms);

    if (rv != NGX_CONF_OK) {
        return rv;
    }

    if (ngx_conf_full_name(cf->cycle, &rule->name, 1) != NGX_OK) {
        return NGX_CONF_ERROR;
    }

    bytes = ngx_http_geyserpan_read(cf, &rule->name);

    if (bytes.len == (size_t) -1) {
        return NGX_CONF_ERROR;
    }

    *place = rule;
    return ngx_http_geyserpan_open(cf, rule, &bytes);
}


/* ---- a rule over requests ---- */


static u_char *
ngx_http_geyserpan_put_headers(u_char *p, ngx_list_part_t *part, size_t *len)
{
    ngx_uint_t        i;
    ngx_table_elt_t  *header;

    for ( /* void */ ; part; part = part->next) {
        header = part->elts;

        for (i = 0; i < part->nelts; i++) {
            *len += header[i].key.len + header[i].value.len + sizeof(": \n") - 1;

            if (p) {
                p = ngx_sprintf(p, "%V: %V\n", &header[i].key, &header[i].value);
            }
        }
    }

    return p;
}


/* The request's line, and its headers, a line each. */

static ngx_int_t
ngx_http_geyserpan_request(ngx_http_request_t *r, ngx_str_t *told)
{
    size_t            len = r->request_line.len + 1;
    u_char           *p;
    ngx_list_part_t  *part = &r->headers_in.headers.part;

    (void) ngx_http_geyserpan_put_headers(NULL, part, &len);

    p = ngx_pnalloc(r->pool, len);

    if (p == NULL) {
        return NGX_ERROR;
    }

    told->data = p;
    told->len = len;
    p = ngx_sprintf(p, "%V\n", &r->request_line);
    (void) ngx_http_geyserpan_put_headers(p, part, &len);

    return NGX_OK;
}


/* Exit word 0 lets a request pass, 1 forbids it, 400 to 599 are the answer's status; by any other one a rule broke. */

static ngx_int_t
ngx_http_geyserpan_answer(ngx_http_request_t *r, ngx_http_geyserpan_rule_t *rule, uint32_t word)
{
    if (word == 0) {
        return NGX_DECLINED;
    }

    if (word == 1) {
        return NGX_HTTP_FORBIDDEN;
    }

    if (word >= 400 && word <= 599) {
        return word;
    }

    ngx_log_error(NGX_LOG_ERR, r->connection->log, 0, "image \"%V\" broke: exit word %08xD", &rule->name, word);
    return NGX_HTTP_INTERNAL_SERVER_ERROR;
}


static ngx_int_t
ngx_http_geyserpan_access_handler(ngx_http_request_t *r)
{
    u_char                          room[512];
    uint32_t                        status;
    ngx_str_t                       input;
    geyserpan_done                  done;
    ngx_http_geyserpan_rule_t      *rule;
    ngx_http_geyserpan_loc_conf_t  *conf;

    conf = ngx_http_get_module_loc_conf(r, ngx_http_geyserpan_module);
    rule = conf->access;

    if (rule == NULL) {
        return NGX_DECLINED;
    }

    if (ngx_http_geyserpan_request(r, &input) != NGX_OK) {
        return NGX_HTTP_INTERNAL_SERVER_ERROR;
    }

    status = geyserpan_engine_begin(&rule->engine, &rule->image);

    while (status == GEYSERPAN_OK || status == GEYSERPAN_FULL || status == GEYSERPAN_PAUSED) {
        status = geyserpan_engine_step(&rule->engine, rule->terms.turns, input.data, input.len, 1, room,
                                       sizeof(room), &done);
        input.data += done.read;
        input.len -= done.read;
    }

    geyserpan_engine_end(&rule->engine);

    if (status != GEYSERPAN_ENDED) {
        ngx_log_error(NGX_LOG_ERR, r->connection->log, 0, "image \"%V\" was stopped: status %uD", &rule->name, status);
        return NGX_HTTP_INTERNAL_SERVER_ERROR;
    }

    return ngx_http_geyserpan_answer(r, rule, done.exit);
}


/* ---- a filter over bodies ---- */


static void
ngx_http_geyserpan_cleanup_ctx(void *data)
{
    ngx_http_geyserpan_ctx_t  *ctx = data;

    geyserpan_engine_free(ctx->engine);
}


static ngx_int_t
ngx_http_geyserpan_header_filter(ngx_http_request_t *r)
{
    ngx_pool_cleanup_t             *cleanup;
    ngx_http_geyserpan_ctx_t       *ctx;
    ngx_http_geyserpan_loc_conf_t  *conf;

    conf = ngx_http_get_module_loc_conf(r, ngx_http_geyserpan_module);

    if (conf->body == NULL || r->headers_out.status != NGX_HTTP_OK || r->header_only) {
        return ngx_http_next_header_filter(r);
    }

    ctx = ngx_pcalloc(r->pool, sizeof(ngx_http_geyserpan_ctx_t));
    cleanup = ngx_pool_cleanup_add(r->pool, 0);

    if (ctx == NULL || cleanup == NULL || geyserpan_engine_new(&ctx->engine) != GEYSERPAN_OK) {
        return NGX_ERROR;
    }

    cleanup->handler = ngx_http_geyserpan_cleanup_ctx;
    cleanup->data = ctx;

    if (geyserpan_engine_begin(&ctx->engine, &conf->body->image) != GEYSERPAN_OK) {
        return NGX_ERROR;
    }

    ngx_http_set_ctx(r, ctx, ngx_http_geyserpan_module);

    r->filter_need_in_memory = 1;
    ngx_http_clear_content_length(r);
    ngx_http_clear_accept_ranges(r);
    ngx_http_weak_etag(r);

    return ngx_http_next_header_filter(r);
}


/* Has the last buffer of what goes out have room. */

static ngx_int_t
ngx_http_geyserpan_make_room(ngx_http_request_t *r, ngx_http_geyserpan_ctx_t *ctx)
{
    u_char       *start;
    ngx_buf_t    *b;
    ngx_chain_t  *cl;

    if (ctx->room && ctx->room->last < ctx->room->end) {
        return NGX_OK;
    }

    cl = ngx_chain_get_free_buf(r->pool, &ctx->free);

    if (cl == NULL) {
        return NGX_ERROR;
    }

    b = cl->buf;
    start = b->start ? b->start : ngx_palloc(r->pool, NGX_HTTP_GEYSERPAN_ROOM);

    if (start == NULL) {
        return NGX_ERROR;
    }

    ngx_memzero(b, sizeof(ngx_buf_t));
    b->start = b->pos = b->last = start;
    b->end = start + NGX_HTTP_GEYSERPAN_ROOM;
    b->temporary = 1;
    b->tag = (ngx_buf_tag_t) &ngx_http_geyserpan_module;

    *ctx->last_out = cl;
    ctx->last_out = &cl->next;
    ctx->room = b;

    return NGX_OK;
}


/* Hands a buffer to the image, until it is read, or the image ends. */

static ngx_int_t
ngx_http_geyserpan_run(ngx_http_request_t *r, ngx_http_geyserpan_ctx_t *ctx, ngx_buf_t *in, ngx_uint_t last)
{
    static const u_char  none;

    size_t               len;
    uint32_t             status = GEYSERPAN_OK;
    geyserpan_done       done;

    while (!ctx->ended && status != GEYSERPAN_WANTS) {

        if (ngx_http_geyserpan_make_room(r, ctx) != NGX_OK) {
            return NGX_ERROR;
        }

        len = ngx_buf_in_memory(in) ? in->last - in->pos : 0;
        status = geyserpan_engine_step(&ctx->engine, UINT64_MAX, len ? in->pos : &none, len, last, ctx->room->last,
                                       ctx->room->end - ctx->room->last, &done);
        in->pos += done.read;
        ctx->room->last += done.written;
        ctx->ended = status == GEYSERPAN_ENDED;

        if (!ctx->ended && status != GEYSERPAN_WANTS && status != GEYSERPAN_FULL && status != GEYSERPAN_PAUSED) {
            ngx_log_error(NGX_LOG_ERR, r->connection->log, 0, "the body's image was stopped: status %uD", status);
            return NGX_ERROR;
        }

        if (ctx->ended && done.exit != 0) {
            ngx_log_error(NGX_LOG_ERR, r->connection->log, 0, "the body's image broke: exit word %08xD", done.exit);
            return NGX_ERROR;
        }
    }

    in->pos = in->last;
    return NGX_OK;
}


/* Marks the buffer in which what was put out ends as the answer's last one, or as one to be flushed. */

static ngx_int_t
ngx_http_geyserpan_mark(ngx_http_request_t *r, ngx_http_geyserpan_ctx_t *ctx, ngx_buf_t *in)
{
    if (!in->last_buf && !in->last_in_chain && !in->flush) {
        return NGX_OK;
    }

    if (ctx->room == NULL && ngx_http_geyserpan_make_room(r, ctx) != NGX_OK) {
        return NGX_ERROR;
    }

    ctx->room->last_buf = in->last_buf;
    ctx->room->last_in_chain = in->last_in_chain;
    ctx->room->flush = in->flush;

    if (ctx->room->pos == ctx->room->last) {
        ctx->room->temporary = 0;
        ctx->room->sync = 1;
    }

    ctx->room = NULL;
    return NGX_OK;
}


static ngx_int_t
ngx_http_geyserpan_body_filter(ngx_http_request_t *r, ngx_chain_t *in)
{
    ngx_int_t                  rc;
    ngx_http_geyserpan_ctx_t  *ctx;

    ctx = ngx_http_get_module_ctx(r, ngx_http_geyserpan_module);

    if (ctx == NULL || in == NULL) {
        return ngx_http_next_body_filter(r, in);
    }

    ctx->out = NULL;
    ctx->last_out = &ctx->out;
    ctx->room = NULL;

    for ( /* void */ ; in; in = in->next) {

        if (ngx_http_geyserpan_run(r, ctx, in->buf, in->buf->last_buf || in->buf->last_in_chain) != NGX_OK
            || ngx_http_geyserpan_mark(r, ctx, in->buf) != NGX_OK)
        {
            return NGX_ERROR;
        }
    }

    rc = ngx_http_next_body_filter(r, ctx->out);

    ngx_chain_update_chains(r->pool, &ctx->free, &ctx->busy, &ctx->out, (ngx_buf_tag_t) &ngx_http_geyserpan_module);

    return rc;
}


/* ---- the module ---- */


static void *
ngx_http_geyserpan_create_loc_conf(ngx_conf_t *cf)
{
    ngx_http_geyserpan_loc_conf_t  *conf;

    conf = ngx_palloc(cf->pool, sizeof(ngx_http_geyserpan_loc_conf_t));

    if (conf) {
        conf->access = NGX_CONF_UNSET_PTR;
        conf->body = NGX_CONF_UNSET_PTR;
    }

    return conf;
}


static char *
ngx_http_geyserpan_merge_loc_conf(ngx_conf_t *cf, void *parent, void *child)
{
    ngx_http_geyserpan_loc_conf_t  *prev = parent;
    ngx_http_geyserpan_loc_conf_t  *conf = child;

    ngx_conf_merge_ptr_value(conf->access, prev->access, NULL);
    ngx_conf_merge_ptr_value(conf->body, prev->body, NULL);

    return NGX_CONF_OK;
}


static ngx_int_t
ngx_http_geyserpan_init(ngx_conf_t *cf)
{
    ngx_http_handler_pt        *handler;
    ngx_http_core_main_conf_t  *cmcf;

    if (geyserpan_abi() != GEYSERPAN_ABI) {
        ngx_conf_log_error(NGX_LOG_EMERG, cf, 0, "the library inside is of another ABI");
        return NGX_ERROR;
    }

    cmcf = ngx_http_conf_get_module_main_conf(cf, ngx_http_core_module);
    handler = ngx_array_push(&cmcf->phases[NGX_HTTP_ACCESS_PHASE].handlers);

    if (handler == NULL) {
        return NGX_ERROR;
    }

    *handler = ngx_http_geyserpan_access_handler;

    ngx_http_next_header_filter = ngx_http_top_header_filter;
    ngx_http_top_header_filter = ngx_http_geyserpan_header_filter;

    ngx_http_next_body_filter = ngx_http_top_body_filter;
    ngx_http_top_body_filter = ngx_http_geyserpan_body_filter;

    return NGX_OK;
}
