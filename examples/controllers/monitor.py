"""A monitor on os-ken. It has one entry for packets to 10.0.0.0/24, which does nothing, and asks each second how many
packets that counted.

    osken-manager --ofp-listen-host 127.0.0.1 --ofp-tcp-listen-port 6634 examples/controllers/monitor.py

It tells on standard output, a line each: `features dpid=D ports=P,P..` as its switch comes up, and `packets=N`.
bench/serve_real reads these lines.
"""
from os_ken.base import app_manager
from os_ken.controller import ofp_event
from os_ken.controller.handler import CONFIG_DISPATCHER, MAIN_DISPATCHER, set_ev_cls
from os_ken.lib import hub
from os_ken.ofproto import ofproto_v1_0


class Monitor(app_manager.OSKenApp):
    OFP_VERSIONS = [ofproto_v1_0.OFP_VERSION]

    @set_ev_cls(ofp_event.EventOFPSwitchFeatures, CONFIG_DISPATCHER)
    def comes_up(self, event):
        datapath = event.msg.datapath
        ports = ",".join(str(port) for port in sorted(event.msg.ports))
        print(f"features dpid={datapath.id:016x} ports={ports}", flush=True)
        parser, numbers = datapath.ofproto_parser, datapath.ofproto
        match = parser.OFPMatch(dl_type=0x0800, nw_dst="10.0.0.0", nw_dst_mask=24)
        datapath.send_msg(parser.OFPFlowMod(
            datapath=datapath, match=match, cookie=7, command=numbers.OFPFC_ADD, priority=100,
            buffer_id=numbers.OFP_NO_BUFFER, out_port=numbers.OFPP_NONE, actions=[]))
        hub.spawn(self.ask, datapath, match)

    def ask(self, datapath, match):
        while datapath.is_active:
            datapath.send_msg(datapath.ofproto_parser.OFPFlowStatsRequest(
                datapath, 0, match, 0xff, datapath.ofproto.OFPP_NONE))
            hub.sleep(1)

    @set_ev_cls(ofp_event.EventOFPFlowStatsReply, MAIN_DISPATCHER)
    def is_told(self, event):
        print(f"packets={sum(entry.packet_count for entry in event.msg.body)}", flush=True)
