"""A model of the queue of a build farm, written from its rules apart from the program: it prints the rows of a conversation.

python3 bench/queue_model.py workers|again|lapse|last|deadline|retry: the tables of crates/farm_tests/src/connections/work.rt (workers) and runs.rt.
python3 bench/queue_model.py pair|itself|full|refused|canceled|diamond|tick: those of waits.rt there, of tasks that wait for others.
python3 bench/queue_model.py group|dependants|pending: those of lists.rt there, line by line.
"""
import json, sys
B=1704067200000
def T(ms):
    import datetime
    d=datetime.datetime(1970,1,1)+datetime.timedelta(milliseconds=ms)
    return d.strftime("%Y-%m-%dT%H:%M:%S.")+"%03dZ"%(ms%1000)
PR=["highest","very-high","high","medium","low","very-low","lowest"]
def dump(x): return json.dumps(x,separators=(",",":"),sort_keys=True)
class Farm:
    def __init__(s): s.rows=[]; s.last=0; s.next=0; s.timeout=1200_000; s.most=1_000_000
    def row(s,i): return next((r for r in s.rows if r["id"]==i),None)
    def resolved(s,r): return bool(r["runs"]) and r["runs"][-1]["out"] is not None
    def pending(s,r): return bool(r["runs"]) and r["runs"][-1]["claim"] is None and r["runs"][-1]["out"] is None
    def state(s,run):
        if run["out"]: return run["out"][0] if run["out"][0] in("completed","failed") else "exception"
        return "running" if run["claim"] else "pending"
    def new(s,r,why,at): r["runs"].append(dict(why=why,at=at,no=s.next,claim=None,out=None)); s.next+=1
    def end(s,r,run,reason,at):
        run["out"]=(reason,at)
        why={"claim-expired":"retry","worker-shutdown":"retry","intermittent-task":"task-retry"}.get(reason)
        if why and r["left"]>0: s.new(r,why,at); r["left"]-=1
    # the last run ends; where there is none, one is made that has ended
    def finish(s,r,reason,at):
        if r["runs"]: s.end(r,r["runs"][-1],reason,at)
        else: r["runs"].append(dict(why="exception",at=at,no=None,claim=None,out=(reason,at)))
    # what a task waits for is there: a completed run of each, or that each is resolved, or was run again
    def ready(s,r):
        if r["runs"]: return False
        for i in r["deps"]:
            d=s.row(i)
            if r["requires"]=="all-completed": met=any(u["out"] and u["out"][0]=="completed" for u in d["runs"])
            else: met=s.resolved(d) or any(u["why"]=="rerun" for u in d["runs"])
            if not met: return False
        return True
    # who is ready becomes pending, in the order of creation
    def settle(s,at):
        for r in [r for r in s.rows if s.ready(r)]: s.new(r,"scheduled",at)
    def tick(s,m):
        while True:
            due=[]
            for k,r in enumerate(s.rows):
                if not s.resolved(r):
                    if r["deadline"]<=m: due.append((r["deadline"],0,k))
                    c=r["runs"] and r["runs"][-1]["claim"]
                    if c and c["until"]<=m: due.append((c["until"],1,k))
            if not due: break
            at,kind,k=min(due); r=s.rows[k]
            s.finish(r,["deadline-exceeded","claim-expired"][kind],at)
            s.settle(at)
        s.last=max(s.last,m)
    def status(s,r):
        runs=[]
        for n,u in enumerate(r["runs"]):
            d=dict(reasonCreated=u["why"],runId=n,scheduled=T(u["at"]),state=s.state(u))
            if u["claim"]: d.update(started=T(u["claim"]["at"]),takenUntil=T(u["claim"]["until"]),workerGroup=u["claim"]["g"],workerId=u["claim"]["w"])
            if u["out"]: d.update(reasonResolved=u["out"][0],resolved=T(u["out"][1]))
            runs.append(d)
        return dict(deadline=T(r["deadline"]),expires=T(r["expires"]),projectId="none",provisionerId="prov",retriesLeft=r["left"],runs=runs,schedulerId=r["scheduler"],state=s.state(r["runs"][-1]) if r["runs"] else "unscheduled",taskGroupId=r["group"],taskId=r["id"],taskQueueId="prov/wt",workerType="wt")
    def full(s,r): return dict(created=T(r["created"]),deadline=T(r["deadline"]),dependencies=r["deps"],expires=T(r["expires"]),extra={},metadata=dict(description="d",name="n",owner="o@example.com",source="https://example.com/"),payload={},priority=r["priority"],projectId="none",provisionerId="prov",requires=r["requires"],retries=r["retries"],routes=[],schedulerId=r["scheduler"],scopes=[],tags={},taskGroupId=r["group"],taskQueueId="prov/wt",workerType="wt")
    def conflict(s,rule,r): return 409,dict(code="RequestConflict",details=dict(rule=rule,status=s.status(r)),message="the state forbids it")
    def nf(s,kind,name): return 404,dict(code="ResourceNotFound",details=dict(kind=kind,name=name),message="nothing has that name")
    def bad(s,**d): return 400,dict(code="InputError",details=d,message="the request breaks a rule")
    def ok(s,r): return 200,dict(status=s.status(r))
    def ask(s,clock,call,*a):
        m=max(clock,s.last); s.tick(m)
        st,f=getattr(s,call)(m,*a)
        s.settle(m)
        return st,f() if callable(f) else f
    def create(s,m,i,priority,retries,deadline,deps=(),requires="all-completed",group=None,scheduler="-",expires=None):
        new=dict(id=i,priority=priority,retries=retries,created=B,deadline=deadline,expires=expires or deadline+31536000000,deps=list(deps),requires=requires,group=group or i,scheduler=scheduler)
        r=s.row(i)
        if r: return s.ok(r) if all(r[k]==new[k] for k in new) else s.conflict(1,r)
        if deadline<=m: return s.bad(rule=15)
        others=[d for d in deps if d!=i]
        for d in others:
            if not s.row(d): return s.bad(name=d,rule=16)
        for d in others:
            if s.row(d)["expires"]<deadline: return s.bad(name=d,rule=17)
        kept=next((r["scheduler"] for r in s.rows if r["group"]==new["group"]),scheduler)
        if kept!=scheduler: return 409,dict(code="RequestConflict",details=dict(rule=2,schedulerId=kept),message="the state forbids it")
        if len(s.rows)>=s.most: return 507,dict(code="FarmFull",details=dict(count=len(s.rows)),message="the farm is full")
        new.update(left=retries,runs=[]); s.rows.append(new); return 200,lambda: dict(status=s.status(new))
    def schedule(s,m,i):
        r=s.row(i)
        if not r: return s.nf("task",i)
        if not r["runs"]: s.new(r,"scheduled",m)
        return s.ok(r)
    def stat(s,m,i): r=s.row(i); return s.ok(r) if r else s.nf("task",i)
    def task(s,m,i): r=s.row(i); return (200,s.full(r)) if r else s.nf("task",i)
    # the tasks of a list behind the one that a token names, so many at most; the list has a name and an id
    def page(s,key,name,rows,limit,token):
        behind=rows if token is None else rows[[r["id"] for r in rows].index(token)+1:]
        d={key:name,"tasks":[dict(status=s.status(r),task=s.full(r)) for r in behind[:limit]]}
        if len(behind)>limit: d["continuationToken"]=behind[limit-1]["id"]
        return 200,d
    def group(s,m,g,limit,token):
        rows=[r for r in s.rows if r["group"]==g]
        if token is not None and token not in [r["id"] for r in rows]: return s.bad(name="continuationToken",rule=22)
        return s.page("taskGroupId",g,rows,limit,token) if rows else s.nf("group",g)
    def dependants(s,m,i,limit,token):
        rows=[r for r in s.rows if i in r["deps"]]
        if token is not None and token not in [r["id"] for r in rows]: return s.bad(name="continuationToken",rule=22)
        return s.page("taskId",i,rows,limit,token) if s.row(i) else s.nf("task",i)
    def waiting(s,m,w):
        n=sum(1 for r in s.rows if s.pending(r)) if w=="wt" else 0
        return 200,dict(pendingTasks=n,provisionerId="prov",taskQueueId="prov/"+w,workerType=w)
    def claim(s,m,g,w,n):
        out=[]
        for _ in range(n):
            p=[r for r in s.rows if s.pending(r)]
            if not p: break
            r=min(p,key=lambda r:(PR.index(r["priority"]),r["runs"][-1]["no"]))
            r["runs"][-1]["claim"]=dict(g=g,w=w,at=m,until=m+s.timeout); out.append(r)
        return 200,dict(tasks=[dict(runId=len(r["runs"])-1,status=s.status(r),takenUntil=T(m+s.timeout),task=s.full(r),workerGroup=g,workerId=w) for r in out])
    def run(s,i,n):
        r=s.row(i)
        if not r: return None,s.nf("task",i)
        if n>=len(r["runs"]): return None,s.nf("run","%s/%d"%(i,n))
        return r,None
    def reclaim(s,m,i,n):
        r,e=s.run(i,n)
        if e: return e
        u=r["runs"][n]
        if s.state(u)!="running": return s.conflict(3,r)
        u["claim"]["until"]=m+s.timeout
        return 200,dict(runId=n,status=s.status(r),takenUntil=T(m+s.timeout),workerGroup=u["claim"]["g"],workerId=u["claim"]["w"])
    def report(s,m,i,n,reason):
        r,e=s.run(i,n)
        if e: return e
        u=r["runs"][n]
        if u["out"] and u["out"][0]==reason: return s.ok(r)
        if s.state(u)!="running": return s.conflict(3,r)
        s.end(r,u,reason,m); return s.ok(r)
    def rerun(s,m,i):
        r=s.row(i)
        if not r: return s.nf("task",i)
        if not r["runs"]: return s.conflict(4,r)
        if not s.resolved(r): return s.ok(r)
        if r["deadline"]<=m: return s.conflict(5,r)
        if len(r["runs"])>=50: return s.conflict(6,r)
        s.new(r,"rerun",m); r["left"]=min(r["retries"],50-len(r["runs"])); return s.ok(r)
    def cancel(s,m,i):
        r=s.row(i)
        if not r: return s.nf("task",i)
        if not s.resolved(r): s.finish(r,"canceled",m)
        return s.ok(r)
I=["AAAAAAAAQACAAAAAAAAAA"+c for c in "AQgw"]
f=Farm()
def D(priority,retries,deadline): return '{"created":"%s","deadline":"%s","metadata":{"description":"d","name":"n","owner":"o@example.com","source":"https://example.com/"},"payload":{},"priority":"%s","retries":%d,"taskQueueId":"prov/wt"}'%(T(B),T(deadline),priority,retries)
PH={200:"200 OK",400:"400 Bad Request",404:"404 Not Found",409:"409 Conflict",507:"507 Insufficient Storage"}
rows=[]
def go(ms,req,body,call,*a):
    st,d=f.ask(B+ms,call,*a); rows.append((ms,req,body,PH[st],dump(d)))
def raw(ms,req,body,st,d): f.ask(B+ms,"stat",I[0]); rows.append((ms,req,body,PH[st],dump(d)))
t="/api/queue/v1/task/"
def create(ms,k,p,r,dl): go(ms,"PUT "+t+I[k],D(p,r,B+dl),"create",I[k],p,r,B+dl)
def claim(ms,w,n=None,two=False):
    b='{"tasks":%d,"workerGroup":"g","workerId":"%s"}'%(n,w) if n else '{"workerGroup":"g","workerId":"%s"}'%w
    go(ms,"POST /api/queue/v1/claim-work/prov"+("/" if two else "%2F")+"wt",b,"claim","g",w,n or 1)
def reclaim(ms,k,n): go(ms,"POST %s%s/runs/%d/reclaim"%(t,I[k],n),"","reclaim",I[k],n)
def report(ms,k,n,reason):
    if reason in("completed","failed"): go(ms,"POST %s%s/runs/%d/%s"%(t,I[k],n,reason),"","report",I[k],n,reason)
    else: go(ms,"POST %s%s/runs/%d/exception"%(t,I[k],n),'{"reason":"%s"}'%reason,"report",I[k],n,reason)
def rerun(ms,k): go(ms,"POST %s%s/rerun"%(t,I[k]),"","rerun",I[k])
def cancel(ms,k): go(ms,"POST %s%s/cancel"%(t,I[k]),"","cancel",I[k])
def stat(ms,k): go(ms,"GET %s%s/status"%(t,I[k]),"","stat",I[k])
S=1000; M=60*S; DAY=86400*S
# a task with the smallest definition, whose end is left to `more`
def plain(ms,k,more,retries=5,dl=DAY): go(ms,"PUT "+t+I[k],'{"created":"%s","deadline":"%s","metadata":{"description":"d","name":"n","owner":"o@example.com","source":"https://example.com/"},"payload":{}%s,"taskQueueId":"prov/wt"}'%(T(B),T(B+dl),more),"create" if f.row(I[k]) is None else "stat",I[k],*(("lowest",retries,B+dl) if f.row(I[k]) is None else ()))
# two workers, of whom one dies
def workers():
    claim(0,"a"); cancel(0,0); report(0,0,0,"completed"); reclaim(0,0,0); rerun(0,0)
    create(0,0,"lowest",1,DAY); create(1,1,"high",5,DAY); create(2,2,"lowest",0,DAY)
    reclaim(S,0,0); reclaim(S,0,1); report(S,0,0,"failed")
    claim(10*S,"a"); claim(11*S,"b",2,True); claim(12*S,"b",32)
    reclaim(5*M,1,0); report(6*M,1,0,"completed"); report(6*M,1,0,"completed"); report(6*M,1,0,"failed")
    report(7*M,0,0,"intermittent-task"); rerun(7*M,0); claim(8*M,"a",None,True)
    stat(20*M+11*S-1,2); stat(20*M+11*S,2); report(20*M+12*S,2,0,"completed"); reclaim(20*M+12*S,2,0)
    rerun(21*M,2); rerun(21*M,2); claim(22*M,"a")
    report(23*M,0,1,"worker-shutdown"); report(23*M,2,1,"malformed-payload"); report(23*M,2,1,"malformed-payload"); report(23*M,2,1,"superseded")
    create(24*M,3,"medium",0,30*M); rerun(24*M,1); claim(25*M,"b",2); stat(0,3)
    cancel(26*M,1); cancel(26*M,1); report(26*M,1,1,"failed")
    stat(30*M-1,3); stat(30*M,3); rerun(30*M,3); report(30*M,3,0,"completed")
    raw(31*M,"POST %sx/cancel"%t,"",400,dict(code="InputError",details=dict(name="taskId",rule=22),message="the request breaks a rule"))
    raw(31*M,"POST %s%s/runs/50/completed"%(t,I[0]),"",400,dict(code="InputError",details=dict(name="runId",rule=22),message="the request breaks a rule"))
    raw(31*M,"POST %s%s/runs/01/completed"%(t,I[0]),"",400,dict(code="InputError",details=dict(name="runId",rule=22),message="the request breaks a rule"))
    raw(31*M,"POST /api/queue/v1/claim-work/prov",'{"workerGroup":"g","workerId":"a"}',400,dict(code="InputError",details=dict(name="queue",rule=22),message="the request breaks a rule"))
    raw(31*M,"POST /api/queue/v1/claim-work/prov/wt",'{"workerGroup":"g"}',400,dict(code="InputError",details=dict(rule=23),message="the request breaks a rule"))
    raw(31*M,"POST /api/queue/v1/claim-work/prov/wt",'{"tasks":33,"workerGroup":"g","workerId":"a"}',400,dict(code="InputError",details=dict(rule=23),message="the request breaks a rule"))
    raw(31*M,"POST %s%s/runs/0/exception"%(t,I[0]),'{"reason":"completed"}',400,dict(code="InputError",details=dict(rule=24),message="the request breaks a rule"))
    raw(31*M,"POST %s%s/runs/0/exception"%(t,I[0]),'reason',400,dict(code="InputError",details=dict(rule=20),message="the request breaks a rule"))
# a task that a worker has is made again
def again(): plain(0,0,""); claim(10*S,"w"); plain(11*S,0,"")
# a claim is kept, and lapses at its end; then the clock goes back
def lapse(): plain(0,0,""); claim(10*S,"w"); reclaim(20*M+10*S-1,0,0); report(40*M+10*S-1,0,0,"completed"); stat(0,0)
# a claim lapses and no retry is left
def last(): plain(0,0,',"retries":0',0); claim(10*S,"w"); stat(20*M+10*S,0)
# a claim and the deadline end together
def deadline(): plain(0,0,"",5,20*M+10*S); claim(10*S,"w"); stat(20*M+10*S,0)
# two faults that may pass, and one retry
def retry(): plain(0,0,',"retries":1',1); claim(10*S,"w"); report(11*S,0,0,"intermittent-task"); claim(12*S,"w"); report(13*S,0,1,"intermittent-task")
# a task of the smallest definition that waits for others: only what is not left out is in the body
def waits(ms,k,deps=(),requires=None,group=None,scheduler=None,dl=DAY,expires=None,retries=None):
    d={"created":T(B),"deadline":T(B+dl),"metadata":dict(description="d",name="n",owner="o@example.com",source="https://example.com/"),"payload":{},"taskQueueId":"prov/wt"}
    if deps: d["dependencies"]=[I[j] for j in deps]
    if requires: d["requires"]=requires
    if group is not None: d["taskGroupId"]=I[group]
    if scheduler: d["schedulerId"]=scheduler
    if expires: d["expires"]=T(B+expires)
    if retries is not None: d["retries"]=retries
    go(ms,"PUT "+t+I[k],dump(d),"create",I[k],"lowest",5 if retries is None else retries,B+dl,[I[j] for j in deps],requires or "all-completed",None if group is None else I[group],scheduler or "-",B+expires if expires else None)
def schedule(ms,k): go(ms,"POST %s%s/schedule"%(t,I[k]),"","schedule",I[k])
# one waits for two; the first is run again, and that takes nothing back
def pair():
    waits(0,0); waits(0,1); waits(0,2,[0,1]); claim(0,"w"); report(0,0,0,"completed"); stat(0,2); rerun(0,0); claim(0,"w"); report(0,1,0,"completed"); stat(0,2); claim(0,"w"); claim(0,"w")
# a task that waits for itself
def itself(): waits(0,0,[0]); rerun(0,0); schedule(0,0); schedule(0,0); waits(0,1,[1]); stat(DAY,1); schedule(DAY,2)
# a farm that takes one task, and what comes before that
def full(): f.most=1; waits(0,0); waits(0,1); waits(0,0); waits(0,2,[3]); waits(0,2,group=0,scheduler="s")
# what is refused, in its order
def refused():
    waits(0,0); waits(0,2,[0,3,1]); waits(0,2,[2,0],dl=4*DAY,group=0,scheduler="s"); waits(0,1,expires=DAY+1)
    waits(0,2,[0,1],dl=DAY+2,group=0,scheduler="s"); waits(0,2,[0,1],dl=DAY+1,group=0); waits(0,2,[0,1],dl=DAY+1)
# one that waits until another is resolved, which is canceled, and one that waits until it is completed
def canceled(): waits(0,0); waits(0,1,[0],"all-resolved"); waits(0,2,[0]); cancel(S,0); stat(S,1); stat(S,2); cancel(2*S,2)
# four tasks, of which one comes first and one last
def diamond():
    waits(0,0); waits(0,1,[0],group=0); waits(0,2,[0],"all-resolved",0); waits(0,3,[1,2],group=0); claim(S,"a",32); report(2*S,0,0,"completed"); claim(3*S,"a",32)
    report(4*S,1,0,"completed"); stat(4*S,3); report(5*S,2,0,"completed"); stat(5*S,3); claim(6*S,"b"); report(7*S,3,0,"failed"); waits(7*S,3,[1,2],group=0)
# a deadline makes a task pending whose own deadline falls in the same tick
def tick(): waits(0,0,dl=10*S); waits(0,1,[0],"all-resolved",dl=20*S); waits(0,2,[1],"all-resolved",dl=DAY); stat(30*S,1); stat(30*S,2)
def task(ms,k): go(ms,"GET "+t+I[k],"","task",I[k])
# a query: how many tasks a page has at most, and the token
def listed(ms,path,call,i,limit,token,more=""):
    q=[]
    if limit is not None: q.append("limit=%d"%limit)
    if token is not None: q.append("continuationToken="+I[token])
    go(ms,"GET "+path+("?" if q or more else "")+"&".join(q)+more,"",call,i,1000 if limit is None else limit,None if token is None else I[token])
def group(ms,k,limit=None,token=None,more=""): listed(ms,"/api/queue/v1/task-group/%s/list"%I[k],"group",I[k],limit,token,more)
def dependants(ms,k,limit=None,token=None,more=""): listed(ms,"%s%s/dependents"%(t,I[k]),"dependants",I[k],limit,token,more)
def waiting(ms,w,two=False): go(ms,"GET /api/queue/v1/pending/prov"+("/" if two else "%2F")+w,"","waiting",w)
# two tasks of a group, one of another
def of_group():
    group(0,0); group(0,0,1,0); waits(0,0); waits(0,1,group=0); waits(0,2); group(0,0,1); group(0,0,1,0); group(0,0,1,3); group(0,0,None,2); group(0,0,2); group(0,0,None,1); group(0,2,1000)
    group(0,1); raw(0,"GET /api/queue/v1/task-group/%s/list?limit=1001"%I[0],"",400,dict(code="InputError",details=dict(name="limit",rule=22),message="the request breaks a rule"))
    raw(0,"GET /api/queue/v1/task-group/%s/list?limit=1&limit=1"%I[0],"",400,dict(code="InputError",details=dict(name="limit",rule=22),message="the request breaks a rule"))
# two tasks that wait for one, of which one waits for itself too
def of_task():
    dependants(0,0); dependants(0,0,1,0); waits(0,0); dependants(0,0); waits(0,1,[0]); waits(0,2,[0,2]); dependants(0,0,1,more="&a=b"); dependants(0,0,None,1); dependants(0,2); dependants(0,1,None,2)
    raw(0,"GET %s%s/dependents?continuationToken="%(t,I[0]),"",400,dict(code="InputError",details=dict(name="continuationToken",rule=22),message="the request breaks a rule"))
# tasks that wait in a queue, and one of them as it was made
def of_queue():
    waiting(0,"wt"); task(0,0); waits(0,0); waits(0,1); waits(0,2,[0]); waiting(0,"wt",True); waiting(0,"x"); claim(0,"w"); waiting(0,"wt"); task(S,2); task(S,3)
    raw(S,"GET /api/queue/v1/pending/prov","",400,dict(code="InputError",details=dict(name="queue",rule=22),message="the request breaks a rule"))
{"group":of_group,"dependants":of_task,"pending":of_queue,"pair":pair,"itself":itself,"full":full,"refused":refused,"canceled":canceled,"diamond":diamond,"tick":tick,"workers":workers,"again":again,"lapse":lapse,"last":last,"deadline":deadline,"retry":retry}[sys.argv[1]]()
for ms, req, body, st, rep in rows:
    if sys.argv[1] in ("group","dependants","pending"): print("%d|%s|%s|%s|%s"%(ms,req,body,st,rep)); continue
    print('    (\n        %s,\n        "%s",\n        r#"%s"#,\n        "%s",\n        r#"%s"#,\n    ),' % (format(ms, '_'), req, body, st, rep))
